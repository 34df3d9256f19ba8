//! What the edges of both name queries have in common.

mod empty;
mod large;
mod nonresident;
mod order;
mod places;
mod resident;
mod untested;
mod values;

use super::header::{self, HeaderEdges, Images, Table};
use super::judge::{Edges, Judge};
use super::minimal::Minimal;
use crate::calls::Query;
use reference::Name;

/// A query that can be asked for one string of a list.
pub trait NameEdges: HeaderEdges + Query<Values = Name> {
    /// The request for the string with this number and text. No list starts
    /// with it, and no string before it is equal.
    fn request_for(number: u32, text: &[u8]) -> Self::Request;

    /// The refusal of what sound lists don't have.
    const NOT_THERE: u32;
}

/// The header's edges, those of the lists, the query's own, and those that take
/// longest.
pub fn by_subject<Q: NameEdges>(own: &[Edges<Q>]) -> Vec<Edges<Q>> {
    let lists: [Edges<Q>; 7] = [
        ("end of the resident list (16)", resident::edges),
        ("end of the nonresident list (16)", nonresident::edges),
        ("empty lists", empty::edges),
        ("order of refusals", order::edges),
        ("values of a name", values::edges),
        ("places of the lists", places::edges),
        ("what isn't looked at", untested::edges),
    ];
    let mut edges = header::by_subject();
    edges.extend(lists);
    edges.extend(own);
    edges.push(("long lists", large::edges));
    edges
}

impl<Q: NameEdges> Judge<Q> {
    /// The string with this text is there. The first field is its number.
    fn holds(&mut self, name: &str, image: &Minimal, text: &[u8], fields: [u32; 4]) {
        let request = Q::request_for(fields[0], text);
        self.accepts(name, image, request, fields);
    }

    /// The string would have this number and text if it were there.
    fn lacks(&mut self, name: &str, image: &Minimal, number: u32, text: &[u8]) {
        let request = Q::request_for(number, text);
        self.refuses(name, image, request, Q::NOT_THERE);
    }
}

/// 9 bytes: the first string "M", then "A" with the ordinal word 1234h.
const SHORT: [u8; 9] = [1, b'M', 0, 0, 1, b'A', 0x34, 0x12, 0];

/// The short list for the header's edges.
pub struct NameImages;

impl Images for NameImages {
    type Fields = [u32; 4];

    /// The list lies over the segment's record.
    fn plain() -> Minimal {
        Minimal::new()
            .length(144)
            .ne_word(0x1C, 1)
            .ne_word(0x22, 64)
            .ne_word(0x26, 64)
            .put(128, &SHORT)
    }

    const NEEDED_FROM: usize = 128;

    /// The string "A".
    const PLAIN: [u32; 4] = [2, 133, 1, 0x1234];

    /// The second string's length passes the image.
    fn unsound() -> Minimal {
        Self::plain().put(132, &[12])
    }

    fn in_header(place: usize) -> Minimal {
        Minimal::with_header_at(place)
            .ne_word(0x26, 0x34)
            .put(place + 0x34, &SHORT)
    }

    fn fields_in_header(image: &Minimal) -> [u32; 4] {
        [2, image.header() as u32 + 0x39, 1, 0x1234]
    }

    const READS: &'static [Table] = &[Table::ResidentNames, Table::NonresidentNames];
}

/// A length byte, the text and its ordinal word.
pub fn string(text: &[u8], ordinal: u16) -> Vec<u8> {
    let length = u8::try_from(text.len()).expect("at most 255 bytes");
    [&[length], text, &ordinal.to_le_bytes()].concat()
}

/// Strings and an end byte. The ordinal words are 1, 2 and so on.
pub fn list(texts: &[&[u8]]) -> Vec<u8> {
    let mut bytes = Vec::new();
    for (text, ordinal) in texts.iter().zip(1..) {
        bytes.extend(string(text, ordinal));
    }
    bytes.push(0);
    bytes
}

/// An image with a resident list at 128, which ends it.
pub fn resident(list: &[u8]) -> Minimal {
    Minimal::new()
        .length(128 + list.len())
        .ne_word(0x26, 64)
        .put(128, list)
}

/// The same with the nonresident names right behind that list, to the image's
/// end; there are none where these are no bytes.
pub fn both(resident_list: &[u8], nonresident: &[u8]) -> Minimal {
    let at = 128 + resident_list.len();
    let size = u16::try_from(nonresident.len()).expect("a byte count");
    resident(resident_list)
        .length(at + nonresident.len())
        .ne_word(0x20, size)
        .ne_dword(0x2C, at as u32)
        .put(at, nonresident)
}

/// Where no table has a place, the list is read from "NE" on.
pub const WITHOUT_TABLES: u32 = 16;
