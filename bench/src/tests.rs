//! Careful Rust gives the second program's answers, output and marks, so that
//! it is known to do the same work.

mod queries;
mod slowest;

use crate::answer::{Answer, Request};
use crate::careful;
use crate::inputs;
use crate::second;
use builder::{damage, every_field_damage, generate, specials, Case, Random};
use std::collections::BTreeMap;

/// Lengths of the lent output and marks.
type Room = (usize, usize);
type Outcome = (Answer, Vec<u8>, Vec<u8>);
/// How often each refusal was seen, 0 for acceptance.
type Seen = BTreeMap<u32, u32>;

/// What one program answers and leaves.
fn outcome(
    prepare: fn(&Request, &mut [u8], &mut [u8]) -> Answer,
    request: &Request,
    (output, marks): Room,
) -> Outcome {
    let (mut output, mut marks) = (vec![0xA5; output], vec![0x5A; marks]);
    let answer = prepare(request, &mut output, &mut marks);
    (answer, output, marks)
}

/// Asks both programs.
fn agree(request: &Request, room: Room, seen: &mut Seen, what: &dyn Fn() -> String) {
    let (one, other) = (
        outcome(careful::prepare, request, room),
        outcome(second::prepare, request, room),
    );
    assert_eq!(one.0, other.0, "{}", what());
    assert!(one.1 == other.1, "output: {}", what());
    assert!(one.2 == other.2, "marks: {}", what());
    *seen.entry(one.0.refusal).or_default() += 1;
}

/// Asks for every segment and for numbers that no segment has, with all the
/// room that is needed, with just enough, and with too little.
fn agree_on_all(image: &[u8], case: &Case, seen: &mut Seen, what: &dyn Fn() -> String) {
    for number in 0..case.description.segments.len() as u32 + 2 {
        let mut request = Request {
            image,
            number,
            selectors: &case.selectors,
            answers: &case.answers,
        };
        agree(&request, (65_537, 65_539), seen, what);
        let Ok(segment) = reference::segment(image, number) else {
            continue;
        };
        let (allocation, stored) = (segment.allocation as usize, segment.stored as usize);
        agree(&request, (allocation, stored), seen, what);
        agree(&request, (allocation - 1, stored), seen, what);
        agree(&request, (allocation, stored.saturating_sub(1)), seen, what);
        request.answers = &case.answers[..case.answers.len().min(segment.records as usize) / 2];
        agree(&request, (allocation, stored), seen, what);
        request.answers = &case.answers;
        request.selectors = &case.selectors[..case.selectors.len() / 2];
        agree(&request, (allocation, stored), seen, what);
    }
}

#[test]
fn inputs_are_accepted() {
    for input in inputs::all() {
        let mut seen = Seen::new();
        let room = (input.allocation, input.stored.len());
        let request = input.request(&input.image);
        agree(&request, room, &mut seen, &|| input.name.clone());
        assert_eq!(seen.get(&0), Some(&1), "{}", input.name);
        let sites = outcome(careful::prepare, &request, room).0.sites;
        match input.family {
            Some("no records, by byte") => assert_eq!((input.units, sites), (room.1, 0)),
            Some("16 far sites each, by record") => assert_eq!(16 * input.units, sites as usize),
            Some(_) => assert_eq!(input.units, sites as usize),
            None => {}
        }
    }
}

#[test]
fn sound_images() {
    let mut seen = Seen::new();
    for seed in 0..3_000 {
        let case = generate(seed);
        agree_on_all(&case.image.bytes, &case, &mut seen, &|| {
            format!("seed {seed}")
        });
    }
    assert!(seen[&0] > 1_000, "{seen:?}");
}

#[test]
fn damaged_images() {
    let mut random = Random::new(11);
    let mut seen = Seen::new();
    for seed in 0..5_000 {
        let case = generate(seed);
        let damaged = damage(&case.image, &mut random);
        let what = || format!("seed {seed}: {damaged}");
        agree_on_all(&damaged.bytes, &case, &mut seen, &what);
    }
    for refusal in [
        0, 1, 3, 4, 5, 6, 7, 8, 9, 10, 11, 12, 13, 21, 22, 23, 24, 25,
    ] {
        assert!(seen.contains_key(&refusal), "{refusal}: {seen:?}");
    }
}

#[test]
fn special_images() {
    let mut seen = Seen::new();
    for special in specials() {
        let case = special.make();
        agree_on_all(&case.image.bytes, &case, &mut seen, &|| {
            special.name.clone()
        });
    }
    assert!(seen.contains_key(&2) && seen.contains_key(&14), "{seen:?}");
}

#[test]
fn every_field_damaged() {
    let mut seen = Seen::new();
    for seed in 0..10 {
        let case = generate(seed);
        for damaged in every_field_damage(&case.image) {
            let what = || format!("seed {seed}: {damaged}");
            agree_on_all(&damaged.bytes, &case, &mut seen, &what);
        }
    }
}
