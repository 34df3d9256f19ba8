//! The report of a difference.

use super::wrong::segment::{call, rare_start, right, unclean};
use super::wrong::{self, prepare, step};
use crate::calls::{Call, REQUESTS};
use crate::difference::{Difference, Place};
use crate::inputs::{Input, Kind};
use crate::seen::Seen;
use crate::streams::stream;

/// The first difference among the sound images.
fn first(call: impl Call) -> Option<(Difference, Input)> {
    first_of(&call)
}

fn first_of(call: &dyn Call) -> Option<(Difference, Input)> {
    let images = Kind::Sound.inputs(5, 0..20_000);
    images.zip(0..).find_map(|(input, number)| {
        (0..REQUESTS).find_map(|request| {
            let mut random = stream(5, &[number, request]);
            let compared = call.compare(&input, request, &mut random, &mut Seen::default());
            Some((compared.err()?, input.clone()))
        })
    })
}

fn place() -> Place<'static> {
    Place {
        call: "ne_segment",
        kind: "sound",
        case: 1_234,
        seed: 77,
        origin: "some image",
    }
}

#[test]
fn the_right_one_has_none() {
    assert!(first(call(right)).is_none());
}

#[test]
fn the_shortened_image_still_differs() {
    for library in [rare_start, unclean] {
        let (difference, input) = first(call(library)).expect("a difference");
        let short = difference.shortened(&input.bytes);
        assert!(short.len() <= input.bytes.len());
        let answers = (difference.differ)(&short).expect("still a difference");
        assert_ne!(answers.library, answers.reference);
    }
}

#[test]
fn the_report_says_all() {
    let (difference, input) = first(call(rare_start)).expect("a difference");
    let report = difference.report(&place(), &input.bytes);
    let short = difference.shortened(&input.bytes);
    let answers = (difference.differ)(&input.bytes).expect("a difference");
    for part in [
        "DIFFERENCE in ne_segment, sound case 1234",
        "compare --seed 77 --only sound --only-case 1234",
        "image: some image",
        &format!("request: {}", difference.request),
        &format!("library:   {}", answers.library),
        &format!("reference: {}", answers.reference),
        &format!("length {}", short.len()),
    ] {
        assert!(report.contains(part), "{part} isn't in\n{report}");
    }
}

#[test]
fn an_unclean_refusal_is_shown_with_its_values() {
    let (difference, input) = first(call(unclean)).expect("a difference");
    let answers = (difference.differ)(&input.bytes).expect("a difference");
    assert_eq!(answers.reference, "refusal 8");
    assert!(answers.library.starts_with("refusal 8 with Segment"));
    assert!(answers.library.contains("records: 1"));
}

#[test]
fn a_long_image_is_not_printed_whole() {
    let image = vec![0xAB; 100_000];
    let always = Difference {
        request: "number 1".to_string(),
        // Nothing can be cut or zeroed.
        differ: Box::new(|bytes| {
            let whole = bytes.len() == 100_000 && bytes.iter().all(|byte| *byte == 0xAB);
            whole.then(|| crate::difference::Answers {
                library: "one".to_string(),
                reference: "another".to_string(),
            })
        }),
    };
    let report = always.report(&place(), &image);
    assert!(report.lines().count() < 450);
    assert!(report.contains("length 100000"));
}

/// Every kind of difference in lent memory can be told from its report.
#[test]
fn reports_of_lent_memory() {
    let (difference, input) = first(prepare::call(prepare::rare_byte)).expect("a difference");
    let answers = (difference.differ)(&input.bytes).expect("a difference");
    assert!(answers.library.starts_with("6 sites, output "));
    assert!(answers.library.ends_with("marks as the other"));
    assert_ne!(answers.library, answers.reference);
    let (difference, input) = first(step::call(step::rare_byte)).expect("a difference");
    let answers = (difference.differ)(&input.bytes).expect("a difference");
    assert!(answers.library.contains(" at 16, from 0 on ["));
    assert_ne!(answers.library, answers.reference);
}

/// An order in which the steps give other bytes is reported, and its image is
/// shortened like any other.
#[test]
fn reports_of_orders() {
    for (name, call) in wrong::in_some_order().into_iter().take(3) {
        let (difference, input) = first_of(call.as_ref()).expect(name);
        assert!(difference.request.ends_with("then its records by steps"));
        let short = difference.shortened(&input.bytes);
        assert!(short.len() <= input.bytes.len(), "{name}");
        let answers = (difference.differ)(&short).expect("still a difference");
        assert!(answers.library.starts_with("steps over records "), "{name}");
        assert!(answers.reference.starts_with("prepared are "), "{name}");
    }
}
