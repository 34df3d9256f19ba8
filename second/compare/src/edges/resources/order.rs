//! Two checks that fail at once: the earlier one decides.

use super::{block, fields, module, one, table, Judge, Minimal, ResourceEdges, Words};

pub fn edges<Q: ResourceEdges>(judge: &mut Judge<Q>) {
    after_7(judge);
    behind_the_one_found(judge);
    before_data(judge);
    other_data(judge);
}

const SOUND: Words = [0, 4, 0x0C30, 0x8002];
const OUTSIDE: Words = [0xFFFF, 4, 0x0C30, 0x8002];
const ASKED: [u32; 2] = [0x8001, 0x8002];

/// The header's checks come before the table is looked at.
fn after_7<Q: ResourceEdges>(judge: &mut Judge<Q>) {
    let unsound = [
        ("a shift of 16", one(16, 0, 4)),
        ("a cut table", one(0, 0, 4).length(151)),
    ];
    for (name, image) in unsound {
        judge.refuses_all(&format!("18 for {name}"), &image, 18);
        let long = image.ne_word(0x1E, 0xFFFF);
        judge.refuses_all(&format!("7 before 18 for {name}"), &long, 7);
        let shifted = long.ne_word(0x32, 16);
        judge.refuses_all(&format!("6 before 18 for {name}"), &shifted, 6);
    }
    let outside = one(0, 0xFFFF, 4).ne_word(0x1E, 0xFFFF);
    judge.refuses_all("7 before 20", &outside, 7);
}

/// Whole blocks, and then one that leaves the image.
fn cut_behind(blocks: &[Vec<u8>], less: usize) -> Minimal {
    let last = block(0x8003, &[[0, 1, 0, 0x8003]]);
    let image = module(&table(0, &[blocks, &[last]].concat()));
    let end = image.bytes().len();
    image.length(end - less)
}

/// The whole table is checked before anything is searched.
fn behind_the_one_found<Q: ResourceEdges>(judge: &mut Judge<Q>) {
    let blocks = [block(0x8001, &[SOUND]), block(0x8002, &[SOUND])];
    judge.gives("a sound table", &cut_behind(&blocks, 0), 1, fields(0, 4));
    for less in 1..=22 {
        let image = cut_behind(&blocks, less);
        judge.refuses_all(&format!("18 behind it, {less} less"), &image, 18);
    }
    // The type and id asked for, the last but one, and none that is there.
    let image = cut_behind(&blocks, 1);
    for (number, words) in [
        (1, ASKED),
        (2, [0x8002; 2]),
        (3, [0x8003; 2]),
        (9, [0x8009; 2]),
    ] {
        judge.refuses_one(&format!("18, {number}"), &image, number, words, 18);
    }
}

/// 18 before 20, and 8 or 19 before 20.
fn before_data<Q: ResourceEdges>(judge: &mut Judge<Q>) {
    let outside = module(&table(0, &[block(0x8001, &[OUTSIDE])]));
    judge.refuses_one("20 alone", &outside, 1, ASKED, 20);
    judge.refuses_one(
        "8 or 19 before 20",
        &outside,
        2,
        [0x8001, 0x8003],
        Q::NOT_THERE,
    );
    judge.refuses_one(
        "the same, another type",
        &outside,
        2,
        [0x8002, 0x8002],
        Q::NOT_THERE,
    );
    judge.refuses_one(
        "the same, number 0",
        &outside,
        0,
        [0x8002, 0x8001],
        Q::NOT_THERE,
    );
    for less in 1..=22 {
        let image = cut_behind(&[block(0x8001, &[OUTSIDE])], less);
        judge.refuses_one(&format!("18 before 20, {less} less"), &image, 1, ASKED, 18);
    }
    judge.refuses_one(
        "18 for the shift before 20",
        &one(16, 0xFFFF, 4),
        1,
        ASKED,
        18,
    );
}

/// Only the data of the one that is found is looked at.
fn other_data<Q: ResourceEdges>(judge: &mut Judge<Q>) {
    let far = [0xFFFF, 0xFFFF, 0, 0x8009];
    let blocks = [
        block(0x8003, &[far, far]),
        block(0x8001, &[far, SOUND, far]),
        block(0x8004, &[far]),
    ];
    let image = module(&table(0, &blocks));
    judge.gives("one among others outside", &image, 4, fields(0, 4));
    judge.refuses_one("the first of them", &image, 1, [0x8003, 0x8009], 20);
    judge.refuses_one("the one before it", &image, 3, [0x8001, 0x8009], 20);
    judge.refuses_one("the last of them", &image, 6, [0x8004, 0x8009], 20);
}
