//! Refusal 19: the two words asked for.

use super::resources::{block, module, one, table};
use super::Judge;

pub fn edges(judge: &mut Judge) {
    nearly_equal(judge);
    every_pair(judge);
    each_bit(judge);
    of_none(judge);
    of_another_block(judge);
}

fn nearly_equal(judge: &mut Judge) {
    let image = one(0, 0, 4);
    let found = [0x8001, 0x8002, 0x0C30, 0, 4];
    judge.accepts("both", &image, (0x8001, 0x8002), found);
    judge.refuses("exchanged", &image, (0x8002, 0x8001), 19);
    judge.refuses("type one less", &image, (0x8000, 0x8002), 19);
    judge.refuses("type one more", &image, (0x8002, 0x8002), 19);
    judge.refuses("id one less", &image, (0x8001, 0x8001), 19);
    judge.refuses("id one more", &image, (0x8001, 0x8003), 19);
    // The words of the resource that aren't its type and id.
    judge.refuses("flags as id", &image, (0x8001, 0x0C30), 19);
    judge.refuses("count as type", &image, (1, 0x8002), 19);
}

/// Words that a table may hold, but for the last four.
const WORDS: [u32; 12] = [
    0,
    1,
    0x7FFF,
    0x8000,
    0x8001,
    0xFFFE,
    0xFFFF,
    0x0001_0000,
    0x0001_8001,
    0x8000_8001,
    0xFFFF_8001,
    0xFFFF_FFFF,
];

/// Each type has a resource of each id, so that each pair of 16-bit words is
/// there but those of type 0. Only a pair with both high bits is found.
fn every_pair(judge: &mut Judge) {
    let held = &WORDS[..7];
    let resource = |type_word: u32, id: u32| [type_word as u16 & 0x7F, 1, 9, id as u16];
    let of_type = |type_word: u32| -> Vec<u8> {
        let resources: Vec<_> = held.iter().map(|id| resource(type_word, *id)).collect();
        block(type_word as u16, &resources)
    };
    let blocks: Vec<_> = held[1..].iter().map(|word| of_type(*word)).collect();
    let image = module(&table(0, &blocks));
    let findable = [0x8000, 0x8001, 0xFFFE, 0xFFFF];
    for type_word in WORDS {
        for id in WORDS {
            let name = format!("type {type_word:X}h, id {id:X}h");
            if findable.contains(&type_word) && findable.contains(&id) {
                let fields = [type_word, id, 9, type_word & 0x7F, 1];
                judge.accepts(&name, &image, (type_word, id), fields);
            } else {
                judge.refuses(&name, &image, (type_word, id), 19);
            }
        }
    }
}

/// Any of 32 bits makes another type and another id.
fn each_bit(judge: &mut Judge) {
    let image = one(0, 0, 4);
    for bit in 0..32 {
        let (type_word, id) = (0x8001 ^ (1 << bit), 0x8002 ^ (1 << bit));
        judge.refuses(
            &format!("bit {bit} of the type"),
            &image,
            (type_word, 0x8002),
            19,
        );
        judge.refuses(&format!("bit {bit} of the id"), &image, (0x8001, id), 19);
        judge.refuses(&format!("bit {bit} of both"), &image, (type_word, id), 19);
    }
}

/// An empty table, blocks without resources, and no table.
fn of_none(judge: &mut Judge) {
    let empty = module(&table(0, &[]));
    let blocks = module(&table(0, &[block(0x8001, &[]), block(0xFFFF, &[])]));
    let no_table = one(0, 0, 4).ne_word(0x26, 64);
    for image in [&empty, &blocks, &no_table] {
        for words in [(0x8001, 0x8001), (0x8001, 0x8002), (0xFFFF, 0xFFFF), (0, 0)] {
            judge.refuses(&format!("{words:X?} of none"), image, words, 19);
        }
    }
}

/// Type and id must belong together.
fn of_another_block(judge: &mut Judge) {
    let blocks = [
        block(0x8001, &[[1, 1, 1, 0x8001], [2, 1, 1, 0x8002]]),
        block(0x8002, &[[3, 1, 1, 0x8003]]),
        block(0x8003, &[]),
        block(0x8004, &[[4, 1, 1, 0x8001]]),
    ];
    let image = module(&table(0, &blocks));
    let held = [
        (0x8001, 0x8001, 1),
        (0x8001, 0x8002, 2),
        (0x8002, 0x8003, 3),
        (0x8004, 0x8001, 4),
    ];
    for type_word in 0x8000..=0x8005 {
        for id in 0x8000..=0x8004 {
            let name = format!("{id:X}h of {type_word:X}h");
            match held.iter().find(|held| (held.0, held.1) == (type_word, id)) {
                Some((.., at)) => {
                    let fields = [type_word, id, 1, *at, 1];
                    judge.accepts(&name, &image, (type_word, id), fields);
                }
                None => judge.refuses(&name, &image, (type_word, id), 19),
            }
        }
    }
}
