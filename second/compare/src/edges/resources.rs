//! What the edges of both resource queries have in common.

mod data;
mod ends;
mod large;
mod none;
mod order;
mod places;
mod shift;
mod untested;
mod values;

use super::header::{self, HeaderEdges, Images, Table};
use super::judge::{Edges, Judge};
use super::minimal::Minimal;
use crate::calls::Query;

/// A query that can be asked for one resource of a table.
pub trait ResourceEdges: HeaderEdges + Query<Values = reference::Resource> {
    /// The request for the resource with this number and these words. Both have
    /// the high bit set, and no resource before it has the same two.
    fn request_for(number: u32, type_word: u32, id_word: u32) -> Self::Request;

    /// The refusal of what a sound table doesn't have.
    const NOT_THERE: u32;
}

/// The header's edges, those of the table, the query's own, and those that take
/// longest.
pub fn by_subject<Q: ResourceEdges>(own: &[Edges<Q>]) -> Vec<Edges<Q>> {
    let table: [Edges<Q>; 8] = [
        ("equal places at 24h and 26h", none::edges),
        ("shift of the table (18)", shift::edges),
        ("end of the table (18)", ends::edges),
        ("data (20)", data::edges),
        ("values of a resource", values::edges),
        ("order of refusals", order::edges),
        ("places of the table", places::edges),
        ("what isn't looked at", untested::edges),
    ];
    let mut edges = header::by_subject();
    edges.extend(table);
    edges.extend(own);
    edges.push(("long tables", large::edges));
    edges
}

impl<Q: ResourceEdges> Judge<Q> {
    /// The resource with this number is given. The first two fields are its
    /// words.
    fn gives(&mut self, name: &str, image: &Minimal, number: u32, fields: [u32; 5]) {
        let request = Q::request_for(number, fields[0], fields[1]);
        self.accepts(name, image, request, fields);
    }

    /// The resource with this number and these words is refused.
    fn refuses_one(
        &mut self,
        name: &str,
        image: &Minimal,
        number: u32,
        words: [u32; 2],
        refusal: u32,
    ) {
        let request = Q::request_for(number, words[0], words[1]);
        self.refuses(name, image, request, refusal);
    }
}

/// A resource as it stands in its block: offset, length, flags and id. Its
/// reserved bytes are EEh.
pub type Words = [u16; 4];

/// Bytes that no rule looks at.
const RESERVED: [u8; 4] = [0xEE; 4];

/// A block: type, count, reserved bytes and the resources.
pub fn block(type_word: u16, resources: &[Words]) -> Vec<u8> {
    let count = u16::try_from(resources.len()).expect("a count");
    let mut bytes = [type_word.to_le_bytes(), count.to_le_bytes()].concat();
    bytes.extend(RESERVED);
    for words in resources {
        bytes.extend(words.iter().flat_map(|word| word.to_le_bytes()));
        bytes.extend(RESERVED);
    }
    bytes
}

/// A table: the shift, the blocks and type 0.
pub fn table(shift: u16, blocks: &[Vec<u8>]) -> Vec<u8> {
    [&shift.to_le_bytes(), &blocks.concat()[..], &[0, 0]].concat()
}

/// An image with this table at 128, which ends it.
pub fn module(table: &[u8]) -> Minimal {
    Minimal::new()
        .length(128 + table.len())
        .ne_word(0x24, 64)
        .put(128, table)
}

/// A table of one resource, 24 bytes long. Its words are 8001h and 8002h.
pub fn one(shift: u16, offset: u16, length: u16) -> Minimal {
    let resource = [offset, length, 0x0C30, 0x8002];
    module(&table(shift, &[block(0x8001, &[resource])]))
}

/// What [`one`] gives for data here.
pub fn fields(data_at: u32, data_len: u32) -> [u32; 5] {
    [0x8001, 0x8002, 0x0C30, data_at, data_len]
}

/// A table of one resource for the header's edges.
pub struct ResourceImages;

impl Images for ResourceImages {
    type Fields = [u32; 5];

    /// The table lies over the header, from 36h on, and the segment's record.
    fn plain() -> Minimal {
        let resource = [128, 8, 0x0C30, 0x8002];
        Minimal::new()
            .length(144)
            .ne_word(0x1C, 1)
            .ne_word(0x22, 64)
            .ne_word(0x24, 0x36)
            .put(118, &table(0, &[block(0x8001, &[resource])]))
    }

    const NEEDED_FROM: usize = 118;

    const PLAIN: [u32; 5] = [0x8001, 0x8002, 0x0C30, 128, 8];

    /// The table's shift is 16.
    fn unsound() -> Minimal {
        Self::plain().put_word(118, 16)
    }

    /// The table stands from 08h on. It ends with the count of modules, which
    /// is 0.
    fn in_header(place: usize) -> Minimal {
        let words = [0, 0x8001, 1, 0xEEEE, 0xEEEE, 32, 3, 0x0C30, 0x8002];
        let image = Minimal::with_header_at(place).ne_word(0x24, 0x08);
        let put =
            |image: Minimal, (index, word): (usize, u16)| image.ne_word(0x08 + 2 * index, word);
        words.into_iter().enumerate().fold(image, put)
    }

    fn fields_in_header(_: &Minimal) -> [u32; 5] {
        [0x8001, 0x8002, 0x0C30, 32, 3]
    }

    const READS: &'static [Table] = &[Table::Resources];
}
