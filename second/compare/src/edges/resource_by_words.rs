//! The edges of the resource query by type and id.

mod first_match;
mod words;

use super::header::HeaderEdges;
use super::judge::{self, Edges};
use super::resources::{self, ResourceEdges, ResourceImages};
use crate::calls::{FieldsOf, ResourceByWords, Words};

type Judge = judge::Judge<ResourceByWords>;

pub fn by_subject() -> Vec<Edges<ResourceByWords>> {
    resources::by_subject(&[
        ("words (19)", words::edges),
        ("first match", first_match::edges),
    ])
}

impl ResourceEdges for ResourceByWords {
    fn request_for(_: u32, type_word: u32, id_word: u32) -> Words {
        (type_word, id_word)
    }

    const NOT_THERE: u32 = 19;
}

impl HeaderEdges for ResourceByWords {
    type Images = ResourceImages;

    fn asked() -> Words {
        (0x8001, 0x8002)
    }

    /// Other words, words without the high bit, and no words at all.
    fn others() -> Vec<Words> {
        vec![
            (0x8001, 0x8001),
            (0x8002, 0x8002),
            (0x8002, 0x8001),
            (0, 0),
            (0x0001, 0x8002),
            (0x8001, 0x0002),
            (0x0001_8001, 0x8002),
            (0x8001, 0xFFFF_8002),
            (0xFFFF_FFFF, 0xFFFF_FFFF),
        ]
    }

    const WITHOUT_TABLES: Result<FieldsOf<Self>, u32> = Err(19);
}
