//! The requests that preparing is asked.

use super::Preparing;
use crate::calls::held::{self, Held};
use crate::inputs::Input;
use crate::stated;
use builder::Random;

/// How long selectors, answers, output and marks are.
type Lengths = [usize; 4];

pub fn worth_preparing(input: &Input, request: u64, random: &mut Random) -> Preparing {
    let number = number(input, request, random);
    let needed = needed(&input.bytes, number);
    let [selectors, answers, output, marks] = lengths(needed, request, random);
    let start = random.below(255);
    Preparing {
        number,
        selectors: Held::drawn(held::selectors(selectors, random), random),
        answers: Held::drawn(held::answers(answers, random), random),
        output: Held::drawn(Held::filled(output, start), random),
        marks: Held::drawn(Held::filled(marks, start), random),
    }
}

/// Mostly the segment that is worth asking for, or any; one of the requests has
/// a number that isn't in the table.
fn number(input: &Input, request: u64, random: &mut Random) -> u32 {
    let last = stated::segment_count(&input.bytes);
    let any = 1 + random.below(last as usize) as u32;
    match request {
        0 | 2 | 4 => input.segment.unwrap_or(any),
        1 => 1,
        5 => last,
        6 => random.pick(&[0, last + 1, 65_536 + any, 0x8000_0000 + any, u32::MAX]),
        _ => any,
    }
}

/// What 21 demands, as far as the image states it.
fn needed(image: &[u8], number: u32) -> Lengths {
    let segments = stated::segment_count(image) as usize;
    match stated::segment(image, number) {
        None => [segments, 1, 8, 8],
        Some(segment) => [
            segments,
            segment.records,
            segment.allocation,
            segment.stored,
        ],
    }
}

/// Exact ones first; then one list is short by one, and others are longer.
fn lengths(needed: Lengths, request: u64, random: &mut Random) -> Lengths {
    match request {
        0 | 1 | 6 => needed,
        2 => {
            let mut lengths = needed;
            let short = random.below(4);
            lengths[short] = lengths[short].saturating_sub(1);
            lengths
        }
        7 => needed.map(|length| random.pick(&[length, length, 0, length / 2, 9])),
        // Marks may reach beyond the stored bytes, and beyond the allocation.
        _ => needed.map(|length| length + random.pick(&[0, 1, 2, 9, 40])),
    }
}
