//! The first match in file order decides, also where it is 20.

use super::resources::{block, module, table, Words};
use super::Judge;

pub fn edges(judge: &mut Judge) {
    in_one_block(judge);
    in_two_blocks(judge);
    where_it_leaves_the_image(judge);
    behind_what_cannot_be_found(judge);
}

/// Equal ids differ by their offsets.
fn in_one_block(judge: &mut Judge) {
    let equal = [
        [1, 1, 0, 0x8002],
        [2, 1, 0, 0x8001],
        [3, 1, 0, 0x8002],
        [4, 1, 0, 0x8001],
    ];
    let image = module(&table(0, &[block(0x8001, &equal)]));
    judge.accepts(
        "the first of two",
        &image,
        (0x8001, 0x8002),
        [0x8001, 0x8002, 0, 1, 1],
    );
    judge.accepts(
        "the second of four",
        &image,
        (0x8001, 0x8001),
        [0x8001, 0x8001, 0, 2, 1],
    );
}

/// A type may come again, with other types and empty blocks between.
fn in_two_blocks(judge: &mut Judge) {
    let blocks = [
        block(0x8001, &[]),
        block(0x8001, &[[1, 1, 0, 0x8001]]),
        block(0x8002, &[[2, 1, 0, 0x8002], [3, 1, 0, 0x8001]]),
        block(0x8001, &[[4, 1, 0, 0x8002], [5, 1, 0, 0x8001]]),
        block(0x8002, &[[6, 1, 0, 0x8003]]),
        block(0x8001, &[[7, 1, 0, 0x8002], [8, 1, 0, 0x8003]]),
    ];
    let image = module(&table(0, &blocks));
    let held = [
        (0x8001, 0x8001, 1),
        (0x8001, 0x8002, 4),
        (0x8001, 0x8003, 8),
        (0x8002, 0x8001, 3),
        (0x8002, 0x8002, 2),
        (0x8002, 0x8003, 6),
    ];
    for (type_word, id, at) in held {
        let name = format!("{id:X}h of {type_word:X}h");
        judge.accepts(&name, &image, (type_word, id), [type_word, id, 0, at, 1]);
    }
    judge.refuses("8004h of 8001h", &image, (0x8001, 0x8004), 19);
}

/// A later one whose data is inside doesn't help.
fn where_it_leaves_the_image(judge: &mut Judge) {
    let (inside, outside): (Words, Words) = ([1, 1, 0, 0x8001], [0xFFFF, 1, 0, 0x8001]);
    let one = module(&table(0, &[block(0x8001, &[outside, inside])]));
    judge.refuses("the first of two is outside", &one, (0x8001, 0x8001), 20);
    let other = module(&table(0, &[block(0x8001, &[inside, outside])]));
    let found = [0x8001, 0x8001, 0, 1, 1];
    judge.accepts(
        "the second of two is outside",
        &other,
        (0x8001, 0x8001),
        found,
    );
    let blocks = [block(0x8001, &[outside]), block(0x8001, &[inside])];
    judge.refuses(
        "of two blocks",
        &module(&table(0, &blocks)),
        (0x8001, 0x8001),
        20,
    );
    let blocks = [block(0x8001, &[inside]), block(0x8001, &[outside])];
    judge.accepts(
        "of two blocks",
        &module(&table(0, &blocks)),
        (0x8001, 0x8001),
        found,
    );
}

/// The same low bits, or one of the words, aren't a match.
fn behind_what_cannot_be_found(judge: &mut Judge) {
    let far = |id| [0xFFFF, 1, 0, id];
    let blocks = [
        block(0x0001, &[far(0x8001), far(0x0001)]),
        block(0x8001, &[far(0x0001), far(0x8101), far(0x8000)]),
        block(0x8002, &[far(0x8001)]),
        block(0x8101, &[far(0x8001)]),
        block(0x8001, &[[1, 1, 0, 0x8001]]),
    ];
    let image = module(&table(0, &blocks));
    let found = [0x8001, 0x8001, 0, 1, 1];
    judge.accepts("behind others", &image, (0x8001, 0x8001), found);
    judge.refuses(
        "the type alone without the bit",
        &image,
        (0x0001, 0x8001),
        19,
    );
    judge.refuses("the id alone without the bit", &image, (0x8001, 0x0001), 19);
    judge.refuses("both without the bit", &image, (0x0001, 0x0001), 19);
    judge.refuses("the one of another type", &image, (0x8002, 0x8001), 20);
}
