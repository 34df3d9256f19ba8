//! Header queries that are wrong in one respect.

use super::exchanged;
use crate::calls::{Function, HeaderQuery, Whole};
use crate::results::HeaderResult;
use crate::stated;

/// The right one, for the others to spoil.
pub fn right(image: &[u8], _: &Whole) -> HeaderResult {
    reference::tables(image).into()
}

pub fn refused(refusal: u32) -> HeaderResult {
    Err(refusal).into()
}

/// The unit is doubled in a rare header.
pub fn rare_unit(image: &[u8], whole: &Whole) -> HeaderResult {
    spoiled(image, whole, |header| {
        if header.segments == 3 && header.modules == 2 && header.unit > 4 {
            header.unit *= 2;
        }
    })
}

/// The right answer, with this done to an accepted one.
fn spoiled(image: &[u8], whole: &Whole, spoil: impl Fn(&mut HeaderResult)) -> HeaderResult {
    let mut header = right(image, whole);
    if header.refusal == 0 {
        spoil(&mut header);
    }
    header
}

/// Two fields change places.
macro_rules! swapped {
    ($one:ident, $other:ident) => {
        |image, whole| {
            spoiled(image, whole, |header| {
                std::mem::swap(&mut header.$one, &mut header.$other)
            })
        }
    };
}

/// A place counts from the NE header.
macro_rules! from_header {
    ($place:ident) => {
        |image, whole| spoiled(image, whole, |header| header.$place -= header.header_at)
    };
}

/// A table of size 0 has place 0.
macro_rules! none_if_empty {
    ($place:ident, $size:ident) => {
        |image, whole| spoiled(image, whole, |header| header.$place *= header.$size.min(1))
    };
}

type Query = fn(&[u8], &Whole) -> HeaderResult;

pub const WRONG: [(&str, Query); 22] = [
    ("5 and 6", |image, _| {
        exchanged(reference::tables(image), 5, 6).into()
    }),
    ("unclean", |image, whole| {
        let mut header = right(image, whole);
        header.header_at = stated::header_at(image).unwrap_or(0) as u32;
        header
    }),
    ("refusing", |_, _| refused(1)),
    ("shift", |image, whole| {
        spoiled(image, whole, |header| header.unit = header.unit.ilog2())
    }),
    ("shift 0 is 9", |image, whole| {
        spoiled(image, whole, |header| {
            if header.unit == 1 {
                header.unit = 512;
            }
        })
    }),
    ("segments and modules", swapped!(segments, modules)),
    ("their places", swapped!(segments_at, modules_at)),
    ("sizes", swapped!(entries_len, nonresident_len)),
    ("names", swapped!(resident_at, nonresident_at)),
    ("imported and resident", swapped!(imported_at, resident_at)),
    (
        "resources and resident",
        swapped!(resources_at, resident_at),
    ),
    ("segments from the header", from_header!(segments_at)),
    ("modules from the header", from_header!(modules_at)),
    ("entries from the header", from_header!(entries_at)),
    ("resident from the header", from_header!(resident_at)),
    ("imported from the header", from_header!(imported_at)),
    ("resources from the header", from_header!(resources_at)),
    ("nonresident from the header", |image, whole| {
        spoiled(image, whole, |header| {
            header.nonresident_at = header.nonresident_at.wrapping_add(header.header_at);
        })
    }),
    ("no segments", none_if_empty!(segments_at, segments)),
    ("no entries", none_if_empty!(entries_at, entries_len)),
    ("no names", none_if_empty!(nonresident_at, nonresident_len)),
    ("places in 16 bits", |image, whole| {
        spoiled(image, whole, |header| header.resources_at &= 0xFFFF)
    }),
];

pub fn call(answer: Query) -> Function<HeaderQuery> {
    Function { answer }
}
