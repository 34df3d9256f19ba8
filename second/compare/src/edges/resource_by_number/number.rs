//! Refusal 8: the number asked for.

use super::resources::{block, module, one, table};
use super::{Judge, GREAT};

pub fn edges(judge: &mut Judge) {
    of_one(judge);
    of_none(judge);
    equal_words(judge);
    without_the_high_bit(judge);
    great_numbers(judge);
    past_65_535(judge);
}

fn of_one(judge: &mut Judge) {
    let image = one(0, 0, 4);
    judge.accepts("1 of 1", &image, 1, [0x8001, 0x8002, 0x0C30, 0, 4]);
    for number in [0, 2, 3].into_iter().chain(GREAT) {
        judge.refuses(&format!("{number} of 1"), &image, number, 8);
    }
}

/// An empty table, blocks without resources, and no table.
fn of_none(judge: &mut Judge) {
    let empty = module(&table(0, &[]));
    let blocks = module(&table(0, &[block(0x8001, &[]), block(1, &[])]));
    let no_table = one(0, 0, 4).ne_word(0x26, 64);
    for image in [&empty, &blocks, &no_table] {
        for number in [0, 1, 2].into_iter().chain(GREAT) {
            judge.refuses(&format!("{number} of 0"), image, number, 8);
        }
    }
}

/// Each of those with equal words has its own number, and its own data.
fn equal_words(judge: &mut Judge) {
    let blocks = [
        block(0x8001, &[[1, 0, 0, 0x8001], [2, 0, 0, 0x8001]]),
        block(0x8001, &[[0xFFFF, 0, 0, 0x8001], [4, 0, 0, 0x8001]]),
    ];
    let image = module(&table(0, &blocks));
    for number in [1, 2, 4] {
        let name = format!("{number} of 4 equal ones");
        judge.accepts(&name, &image, number, [0x8001, 0x8001, 0, number, 0]);
    }
    judge.refuses("3 of 4 equal ones, outside", &image, 3, 20);
    judge.refuses("0 of 4 equal ones", &image, 0, 8);
    judge.refuses("5 of 4 equal ones", &image, 5, 8);
}

/// Types and ids without it count, and are reported.
fn without_the_high_bit(judge: &mut Judge) {
    let blocks = [
        block(0x0001, &[[1, 0, 0, 0x0000], [2, 0, 0, 0x8001]]),
        block(0x7FFF, &[]),
        block(0x8001, &[[3, 0, 0, 0x7FFF], [4, 0, 0, 0x8001]]),
        block(0x0100, &[[5, 0, 0, 0x0001]]),
    ];
    let image = module(&table(0, &blocks));
    let held = [
        [0x0001, 0x0000],
        [0x0001, 0x8001],
        [0x8001, 0x7FFF],
        [0x8001, 0x8001],
        [0x0100, 0x0001],
    ];
    for (number, [type_word, id]) in (1..).zip(held) {
        let name = format!("{number} of 5");
        judge.accepts(&name, &image, number, [type_word, id, 0, number, 0]);
    }
    judge.refuses("6 of 5", &image, 6, 8);
}

fn great_numbers(judge: &mut Judge) {
    let image = module(&table(0, &[block(0x8001, &[[1, 0, 0, 0x8001]; 3])]));
    judge.refuses_above_3(&image, 8);
}

/// Two blocks, of 65,535 and of 9. Each resource's words follow from its number.
fn past_65_535(judge: &mut Judge) {
    let words = |number: u32| [0, 0, (number / 2) as u16, number as u16];
    let resources: Vec<[u16; 4]> = (1..=65_544).map(words).collect();
    let (first, second) = resources.split_at(65_535);
    let image = module(&table(0, &[block(0x0002, first), block(0x0003, second)]));
    let asked = [
        1, 2, 255, 256, 32_767, 32_768, 65_534, 65_535, 65_536, 65_537, 65_538, 65_544,
    ];
    for number in asked {
        let type_word = if number > 65_535 { 3 } else { 2 };
        let fields = [type_word, number & 0xFFFF, number / 2, 0, 0];
        judge.accepts(&format!("{number} of 65,544"), &image, number, fields);
    }
    for number in [0, 65_545, 131_072, 131_073, 0x0100_0001, 0x8000_0001] {
        judge.refuses(&format!("{number} of 65,544"), &image, number, 8);
    }
}
