//! The module query's edges.

mod number;
mod order;
mod places;
mod string;
mod tables;
mod untested;

use super::header::{self, HeaderEdges, Images, Table};
use super::judge::{self, Edges};
use super::minimal::Minimal;
use super::{other_numbers, GREAT};
use crate::calls::{FieldsOf, ModuleQuery};

type Judge = judge::Judge<ModuleQuery>;

pub fn by_subject() -> Vec<Edges<ModuleQuery>> {
    let own: [Edges<ModuleQuery>; 6] = [
        ("module references (7)", tables::edges),
        ("number (8)", number::edges),
        ("string (16)", string::edges),
        ("places of strings (16)", places::edges),
        ("order of refusals", order::edges),
        ("what isn't looked at", untested::edges),
    ];
    header::by_subject().into_iter().chain(own).collect()
}

impl HeaderEdges for ModuleQuery {
    type Images = ModuleImages;

    fn asked() -> u32 {
        1
    }

    fn others() -> Vec<u32> {
        other_numbers()
    }

    const WITHOUT_TABLES: Result<FieldsOf<Self>, u32> = Err(8);
}

/// A module reference for the header's edges.
pub struct ModuleImages;

impl Images for ModuleImages {
    type Fields = [u32; 2];

    /// Behind the segment's record stand the reference, the imported names'
    /// first byte and the string.
    fn plain() -> Minimal {
        Minimal::new()
            .length(144)
            .ne_word(0x1C, 1)
            .ne_word(0x22, 64)
            .ne_word(0x1E, 1)
            .ne_word(0x28, 72)
            .ne_word(0x2A, 74)
            .put_word(136, 1)
            .put(138, b"\0\x03ABC")
    }

    const NEEDED_FROM: usize = 136;

    const PLAIN: [u32; 2] = [140, 3];

    /// The empty string at 138.
    fn unsound() -> Minimal {
        Self::plain().put_word(136, 0)
    }

    fn in_header(place: usize) -> Minimal {
        Minimal::with_header_at(place)
            .ne_word(0x1E, 1)
            .ne_word(0x28, 0x34)
            .ne_word(0x2A, 0x36)
            .put_word(place + 0x34, 2)
            .put(place + 0x38, b"\x07KEYWORD")
    }

    fn fields_in_header(image: &Minimal) -> [u32; 2] {
        [image.header() as u32 + 0x39, 7]
    }

    const READS: &'static [Table] = &[Table::Modules, Table::ImportedNames];
}

/// An image with these references at 128 and the imported names right behind
/// them, which end it.
fn modules(references: &[u16], imported: &[u8]) -> Minimal {
    let bytes: Vec<u8> = references
        .iter()
        .flat_map(|word| word.to_le_bytes())
        .collect();
    let place = u16::try_from(64 + bytes.len()).expect("a place");
    let at = 128 + bytes.len();
    Minimal::new()
        .length(at + imported.len())
        .ne_word(0x1E, references.len() as u16)
        .ne_word(0x28, 64)
        .ne_word(0x2A, place)
        .put(128, &bytes)
        .put(at, imported)
}

/// One reference, to the string at the start of these imported names at 130.
fn one(imported: &[u8]) -> Minimal {
    modules(&[0], imported)
}
