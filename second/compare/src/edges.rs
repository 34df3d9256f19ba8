//! Each refusal at its exact edges, on both sides.
//!
//! The images and the expected answers are written out by hand from document
//! 01 and demanded of both programs. A call has a file of its own here. What
//! every call does first is in `header`; what two calls have in common is in
//! `names` and `resources`.

mod fixups;
mod header;
pub mod judge;
pub mod list;
mod minimal;
pub mod module;
pub mod name_by_bytes;
pub mod name_by_number;
mod names;
pub mod ordinal;
pub mod prepare;
pub mod resource_by_number;
pub mod resource_by_words;
mod resources;
pub mod segment;
pub mod step;
pub mod tables;

use crate::answer::{Answer, Why};
use std::fmt::Debug;
use tally::Tally;

/// Numbers from the greatest word on, some with low words 0 and 1.
const GREAT: [u32; 7] = [
    65_535,
    65_536,
    65_537,
    0x7FFF_FFFF,
    0x8000_0000,
    0x8000_0001,
    0xFFFF_FFFF,
];

/// Numbers that a table of one doesn't have.
fn other_numbers() -> Vec<u32> {
    [0, 2].into_iter().chain(GREAT).collect()
}

/// Counts one edge; both programs must give the expected answer.
fn demand<T: PartialEq + Debug, W: Why>(
    tally: &mut Tally,
    name: &str,
    expected: &Answer<T, W>,
    answers: [(&str, Answer<T, W>); 2],
) {
    let mut held = true;
    for (program, answer) in answers {
        if answer != *expected {
            println!("FAILED edge: {name}\n  expected: {expected}\n  {program}: {answer}");
            held = false;
        }
    }
    tally.count(held);
}
