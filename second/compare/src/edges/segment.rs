//! The segment query's edges.

mod flags;
mod number;
mod order;
mod records;
mod shift;
mod stored;
mod tables;
mod untested;

use super::header::{self, HeaderEdges, Images, Table};
use super::judge::{self, Edges};
use super::minimal::Minimal;
use super::{other_numbers, GREAT};
use crate::calls::{FieldsOf, SegmentQuery};

type Judge = judge::Judge<SegmentQuery>;

pub fn by_subject() -> Vec<Edges<SegmentQuery>> {
    let own: [Edges<SegmentQuery>; 8] = [
        ("starts by the shift", shift::edges),
        ("segment table (7)", tables::edges),
        ("number (8)", number::edges),
        ("stored bytes (9)", stored::edges),
        ("record list (9)", records::edges),
        ("flags and allocation (10, 11)", flags::edges),
        ("order of refusals", order::edges),
        ("what isn't looked at", untested::edges),
    ];
    header::by_subject().into_iter().chain(own).collect()
}

impl HeaderEdges for SegmentQuery {
    type Images = SegmentImages;

    fn asked() -> u32 {
        1
    }

    fn others() -> Vec<u32> {
        other_numbers()
    }

    const WITHOUT_TABLES: Result<FieldsOf<Self>, u32> = Err(8);
}

/// A segment for the header's edges.
pub struct SegmentImages;

impl Images for SegmentImages {
    type Fields = [u32; 5];

    /// The 8 bytes behind the record are those stored.
    fn plain() -> Minimal {
        plain()
    }

    const NEEDED_FROM: usize = 128;

    const PLAIN: [u32; 5] = PLAIN;

    fn unsound() -> Minimal {
        plain().record(128, [0xFFFF, 0, 0x0108, 1])
    }

    /// Of sector 0.
    fn in_header(place: usize) -> Minimal {
        Minimal::with_header_at(place)
            .ne_word(0x1C, 1)
            .ne_word(0x22, 0x34)
            .record(place + 0x34, [0, 5, 0x0010, 3])
    }

    fn fields_in_header(_: &Minimal) -> [u32; 5] {
        [0, 0, 0x0010, 3, 0]
    }

    const READS: &'static [Table] = &[];
}

/// An image with a segment table at 128 and nothing after it.
fn module(records: &[[u16; 4]]) -> Minimal {
    let image = Minimal::new()
        .length(128 + 8 * records.len())
        .ne_word(0x1C, records.len() as u16)
        .ne_word(0x22, 64);
    let put =
        |image: Minimal, (index, words): (usize, &[u16; 4])| image.record(128 + 8 * index, *words);
    records.iter().enumerate().fold(image, put)
}

/// One segment: 8 stored bytes at 136, which end the image, and allocation 8.
fn plain() -> Minimal {
    module(&[[136, 8, 0, 8]]).length(144)
}

/// What [`plain`] gives for number 1.
const PLAIN: [u32; 5] = [136, 8, 0, 8, 0];
