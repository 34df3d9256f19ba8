//! Ordinal queries that are wrong in one respect.

mod fault;
mod walk;

use super::exchanged;
use crate::calls::{Function, OrdinalQuery};
use crate::results::OrdinalResult;
use fault::Fault;
use walk::walk;

/// The right one, for the others to spoil.
pub fn right(image: &[u8], number: &u32) -> OrdinalResult {
    reference::ordinal(image, *number).into()
}

/// Right too, and the one that faults are put in.
pub fn walked(image: &[u8], number: &u32) -> OrdinalResult {
    walk(image, *number, Fault::None).into()
}

pub fn refused(refusal: u32) -> OrdinalResult {
    Err(refusal).into()
}

/// The offset is one less in a rare entry.
pub fn rare_offset(image: &[u8], number: &u32) -> OrdinalResult {
    let mut result = right(image, number);
    if result.segment == 3 && result.flag % 16 == 5 && result.offset > 4 {
        result.offset -= 1;
    }
    result
}

/// Refusal 15 leaves a value behind.
fn unclean(image: &[u8], number: &u32) -> OrdinalResult {
    let mut result = right(image, number);
    if result.refusal == 15 {
        result.flag = 1;
    }
    result
}

/// Ordinal 0 is refused as other numbers are.
fn number_0_is_8(image: &[u8], number: &u32) -> OrdinalResult {
    match (right(image, number), number) {
        (OrdinalResult { refusal: 15, .. }, 0) => refused(8),
        (result, _) => result,
    }
}

/// What is certainly not covered is refused before the table is walked.
fn early_15(image: &[u8], number: &u32) -> OrdinalResult {
    match right(image, number) {
        OrdinalResult {
            refusal: 12..=14, ..
        } if *number > 65_535 => refused(15),
        result => result,
    }
}

/// Offset and flag change places.
fn other_fields(image: &[u8], number: &u32) -> OrdinalResult {
    let result = right(image, number);
    OrdinalResult {
        offset: result.flag,
        flag: result.offset,
        ..result
    }
}

type Query = fn(&[u8], &u32) -> OrdinalResult;

/// The query whose walk has this fault.
macro_rules! faulty {
    ($fault:ident) => {
        (stringify!($fault), |image, number| {
            walk(image, *number, Fault::$fault).into()
        })
    };
}

pub const WRONG: [(&str, Query); 30] = [
    ("12 and 13", |image, number| {
        exchanged(reference::ordinal(image, *number), 12, 13).into()
    }),
    ("unclean", unclean),
    ("number 0 is 8", number_0_is_8),
    ("early 15", early_15),
    ("other fields", other_fields),
    ("low word", |image, number| right(image, &(number & 0xFFFF))),
    ("from 0", |image, number| {
        right(image, &number.wrapping_add(1))
    }),
    ("refusing", |_, _| refused(1)),
    faulty!(NullsUseNone),
    faulty!(NullsDontCount),
    faulty!(CountBeforeSegmentByte),
    faulty!(CountAfterEntryBytes),
    faulty!(CountAfterSegments),
    faulty!(OneMoreOrdinal),
    faulty!(OneLessOrdinal),
    faulty!(CountWraps),
    faulty!(NoInterrupt),
    faulty!(FirstInterruptByte),
    faulty!(SecondInterruptByte),
    faulty!(InterruptInFixed),
    faulty!(MovableSegment0),
    faulty!(SegmentPastTheLast),
    faulty!(NoSegment255),
    faulty!(SegmentCountInAByte),
    faulty!(EntryByEntry),
    faulty!(FirstEntryOnly),
    faulty!(ImageIsTheLimit),
    faulty!(NoEndByte),
    faulty!(BytesBehindTheEnd),
    faulty!(StopsAtTheOrdinal),
];

pub fn call(answer: Query) -> Function<OrdinalQuery> {
    Function { answer }
}
