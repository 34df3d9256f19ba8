//! The header query's edges.

mod places;
mod values;

use super::header::{self, HeaderEdges, Images, Table};
use super::judge::{self, Edges};
use super::minimal::Minimal;
use crate::calls::{FieldsOf, HeaderQuery, Whole};

type Judge = judge::Judge<HeaderQuery>;

pub fn by_subject() -> Vec<Edges<HeaderQuery>> {
    let own: [Edges<HeaderQuery>; 2] = [
        ("values of a header", values::edges),
        ("places outside", places::edges),
    ];
    header::by_subject().into_iter().chain(own).collect()
}

impl HeaderEdges for HeaderQuery {
    type Images = TableImages;

    fn asked() -> Whole {
        Whole
    }

    /// There is nothing else to ask.
    fn others() -> Vec<Whole> {
        Vec::new()
    }

    const WITHOUT_TABLES: Result<FieldsOf<Self>, u32> =
        Ok([64, 32_768, 64, 0, 64, 0, 64, 0, 0, 0, 64, 64, 64]);
}

/// A header for the header's edges.
pub struct TableImages;

impl Images for TableImages {
    type Fields = [u32; 13];

    fn plain() -> Minimal {
        Minimal::new()
            .length(144)
            .ne_word(0x1C, 1)
            .ne_word(0x22, 64)
    }

    const NEEDED_FROM: usize = 136;

    const PLAIN: [u32; 13] = [64, 1, 128, 1, 64, 0, 64, 0, 0, 0, 64, 64, 64];

    /// What stands in the header where it is.
    fn fields(image: &Minimal) -> [u32; 13] {
        let (bytes, header) = (image.bytes(), image.header());
        let byte = |at: usize| u32::from(bytes[header + at]);
        let word = |at| byte(at) | byte(at + 1) << 8;
        let place = |at| header as u32 + word(at);
        let (nonresident, unit) = (word(0x2C) | word(0x2E) << 16, 1 << word(0x32));
        [
            header as u32,
            unit,
            place(0x22),
            word(0x1C),
            place(0x28),
            word(0x1E),
            place(0x04),
            word(0x06),
            nonresident,
            word(0x20),
            place(0x26),
            place(0x2A),
            place(0x24),
        ]
    }

    /// It has no checks of its own.
    fn unsound() -> Minimal {
        Self::plain()
    }

    /// The segment table is the header's last 8 bytes.
    fn in_header(place: usize) -> Minimal {
        Minimal::with_header_at(place)
            .ne_word(0x1C, 1)
            .ne_word(0x22, 0x38)
    }

    fn fields_in_header(image: &Minimal) -> [u32; 13] {
        Self::fields(image)
    }

    /// It reads no table.
    const READS: &'static [Table] = &[];
}
