//! The resource query by type and id.

use super::{Query, Words};
use crate::edges::{self, judge::Edges};
use crate::inputs::Input;
use crate::library::{self, Lent};
use crate::results::ResourceResult;
use crate::stated;
use builder::Random;
use reference::Resource;

/// Asks for a resource by its two words.
pub struct ResourceByWords;

impl Query for ResourceByWords {
    type Request = Words;
    type Values = Resource;
    type Why = u32;
    type Result = ResourceResult;

    const NAME: &'static str = "ne_resource_by_words";
    const ANSWERS: &'static [u32] = &[0, 1, 2, 3, 4, 5, 6, 7, 18, 19, 20];

    fn exported(image: Lent, words: &Words) -> ResourceResult {
        library::resource_by_words(image, words.0, words.1)
    }

    fn reference(image: &[u8], words: &Words) -> Result<Resource, u32> {
        reference::resource_by_words(image, words.0, words.1)
    }

    fn worth_asking(input: &Input, request: u64, random: &mut Random) -> Words {
        let resources = stated::resources(&input.bytes);
        words_to_ask(&resources, request, random)
    }

    fn edges_by_subject() -> Vec<Edges<Self>> {
        edges::resource_by_words::by_subject()
    }
}

/// Words of the table as they stand there, then mixed and changed ones, then
/// wild ones. A table without resources is asked for the first of its kind.
fn words_to_ask(resources: &[stated::Resource], request: u64, random: &mut Random) -> Words {
    let mut any = || match resources.is_empty() {
        true => (0x8001, 0x8001),
        false => {
            let resource = random.pick(resources);
            (resource.type_word, resource.id_word)
        }
    };
    let (first, second) = (any(), any());
    match request {
        0 | 1 => first,
        // The type of one and the id of another.
        2 => (first.0, second.1),
        3 => (first.1, first.0),
        4 => changed(first, 0x8000, random),
        // The low words are in the table.
        5 => changed(
            first,
            random.pick(&[0x1_0000, 0x8000_0000, 0xFFFF_0000]),
            random,
        ),
        6 => changed(first, random.pick(&[1, 2, 0x4000]), random),
        _ => (wild(random), wild(random)),
    }
}

/// One of the words, or both, with these bits the other way round.
fn changed((type_word, id_word): Words, bits: u32, random: &mut Random) -> Words {
    match random.below(3) {
        0 => (type_word ^ bits, id_word),
        1 => (type_word, id_word ^ bits),
        _ => (type_word ^ bits, id_word ^ bits),
    }
}

/// Mostly a number that some table may hold.
fn wild(random: &mut Random) -> u32 {
    match random.below(3) {
        0 => random.edge_u32(),
        1 => u32::from(random.edge_u16()),
        _ => 0x8001 + random.below(4) as u32,
    }
}
