//! The ordinal query's edges.

mod counts;
mod covered;
mod ends;
mod examples;
mod order;
mod segments;
mod tables;
mod untested;

use super::header::{self, HeaderEdges, Images, Table};
use super::judge::{self, Edges};
use super::minimal::Minimal;
use super::{other_numbers, GREAT};
use crate::calls::{FieldsOf, OrdinalQuery};

type Judge = judge::Judge<OrdinalQuery>;

pub fn by_subject() -> Vec<Edges<OrdinalQuery>> {
    let own: [Edges<OrdinalQuery>; 8] = [
        ("P10 and P11", examples::edges),
        ("segment and entry table (7)", tables::edges),
        ("end of the table (12)", ends::edges),
        ("segments and CDh 3Fh (13)", segments::edges),
        ("count of ordinals (14)", counts::edges),
        ("covered and null (15)", covered::edges),
        ("order of refusals", order::edges),
        ("what isn't looked at", untested::edges),
    ];
    header::by_subject().into_iter().chain(own).collect()
}

impl HeaderEdges for OrdinalQuery {
    type Images = OrdinalImages;

    fn asked() -> u32 {
        1
    }

    fn others() -> Vec<u32> {
        other_numbers()
    }

    const WITHOUT_TABLES: Result<FieldsOf<Self>, u32> = Err(15);
}

/// An entry table for the header's edges.
pub struct OrdinalImages;

impl Images for OrdinalImages {
    type Fields = [u32; 3];

    /// The 8 bytes behind the segment's record are the entry table.
    fn plain() -> Minimal {
        plain()
    }

    const NEEDED_FROM: usize = 136;

    const PLAIN: [u32; 3] = PLAIN;

    /// Segment 2 of 1.
    fn unsound() -> Minimal {
        plain().put(137, &[2])
    }

    /// The segment table is the header's last 8 bytes.
    fn in_header(place: usize) -> Minimal {
        Minimal::with_header_at(place)
            .ne_word(0x1C, 1)
            .ne_word(0x22, 0x38)
            .ne_word(0x04, 0x34)
            .ne_word(0x06, 6)
            .put(place + 0x34, &ONE_FIXED)
    }

    fn fields_in_header(_: &Minimal) -> [u32; 3] {
        PLAIN
    }

    const READS: &'static [Table] = &[Table::Entries];
}

/// A table of one fixed entry in segment 1.
const ONE_FIXED: [u8; 6] = [1, 1, 0xA5, 0x34, 0x12, 0];

/// The entry, which is ordinal 1.
const PLAIN: [u32; 3] = [1, 0x1234, 0xA5];

/// The table of one fixed entry with two bytes behind its end.
fn plain() -> Minimal {
    module(1, &[&ONE_FIXED[..], &[0xEE, 0xEE]].concat())
}

/// An image with so many segments, their records at 128, and this entry table
/// right behind them, which ends the image.
pub fn module(segments: u16, table: &[u8]) -> Minimal {
    let place = 64 + 8 * segments;
    let at = 64 + usize::from(place);
    let bytes = u16::try_from(table.len()).expect("a byte count");
    Minimal::new()
        .length(at + table.len())
        .ne_word(0x1C, segments)
        .ne_word(0x22, 64)
        .ne_word(0x04, place)
        .ne_word(0x06, bytes)
        .put(at, table)
}

/// The bundles and an end byte.
pub fn ended(bundles: &[&[u8]]) -> Vec<u8> {
    [&bundles.concat()[..], &[0]].concat()
}

/// Bundles with so many null ordinals in all.
pub fn nulls(count: usize) -> Vec<u8> {
    let mut bundles = [255, 0].repeat(count / 255);
    let rest = (count % 255) as u8;
    if rest > 0 {
        bundles.extend([rest, 0]);
    }
    bundles
}

/// A bundle of so many equal entries in a fixed segment.
pub fn fixed(segment: u8, count: u8) -> Vec<u8> {
    let entries = [0x11, 0x22, 0x33].repeat(usize::from(count));
    [&[count, segment], &entries[..]].concat()
}

/// What an entry of [`fixed`] gives.
fn in_fixed(segment: u32) -> [u32; 3] {
    [segment, 0x3322, 0x11]
}

/// A bundle of so many equal movable entries.
pub fn movable(segment: u8, count: u8) -> Vec<u8> {
    let entries = [0x44, 0xCD, 0x3F, segment, 0x55, 0x66].repeat(usize::from(count));
    [&[count, 255], &entries[..]].concat()
}

/// What an entry of [`movable`] gives.
fn in_movable(segment: u32) -> [u32; 3] {
    [segment, 0x6655, 0x44]
}
