//! Segment queries that are wrong in one respect.

use super::exchanged;
use crate::calls::{Function, SegmentQuery};
use crate::results::SegmentResult;

/// The right one, for the others to spoil.
pub fn right(image: &[u8], number: &u32) -> SegmentResult {
    reference::segment(image, *number).into()
}

pub fn refused(refusal: u32) -> SegmentResult {
    Err(refusal).into()
}

/// The start is one more where four records follow an odd number of bytes.
pub fn rare_start(image: &[u8], number: &u32) -> SegmentResult {
    let mut result = right(image, number);
    if result.records == 4 && result.stored % 2 == 1 {
        result.start += 1;
    }
    result
}

/// Refusal 8 leaves a value behind.
pub fn unclean(image: &[u8], number: &u32) -> SegmentResult {
    let mut result = right(image, number);
    if result.refusal == 8 {
        result.records = 1;
    }
    result
}

/// Only the number's low word is looked at.
fn low_word(image: &[u8], number: &u32) -> SegmentResult {
    right(image, &(number & 0xFFFF))
}

/// All images are refused.
pub fn refusing(_: &[u8], _: &u32) -> SegmentResult {
    refused(1)
}

type Query = fn(&[u8], &u32) -> SegmentResult;

pub const WRONG: [(&str, Query); 4] = [
    ("9 and 11", |image, number| {
        exchanged(reference::segment(image, *number), 9, 11).into()
    }),
    ("unclean", unclean),
    ("low word", low_word),
    ("refusing", refusing),
];

pub fn call(answer: Query) -> Function<SegmentQuery> {
    Function { answer }
}
