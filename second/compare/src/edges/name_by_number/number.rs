//! Refusal 8: the number asked for.

use super::names::{both, list, resident, string};
use super::{HeaderEdges, Judge, NameByNumber, GREAT};

pub fn edges(judge: &mut Judge) {
    first_strings(judge);
    of_six(judge);
    of_none(judge);
    behind_the_lists(judge);
    great_numbers(judge);
    past_65_535(judge);
}

/// Each list's first string has a number too.
fn first_strings(judge: &mut Judge) {
    judge.accepts(
        "the resident first",
        &NameByNumber::plain(),
        1,
        [1, 129, 1, 0],
    );
    let one = resident(&list(&[b"MODULE"]));
    judge.accepts("1 of 1", &one, 1, [1, 129, 6, 1]);
    judge.refuses("0 of 1", &one, 0, 8);
    judge.refuses("2 of 1", &one, 2, 8);
    let other = both(&[0], &list(&[b"DESCRIPTION"]));
    judge.accepts("1 of 1 nonresident", &other, 1, [1, 130, 11, 1]);
    judge.refuses("0 of 1 nonresident", &other, 0, 8);
    judge.refuses("2 of 1 nonresident", &other, 2, 8);
    let two = both(&list(&[b"M"]), &list(&[b"D"]));
    judge.accepts("1 of two first strings", &two, 1, [1, 129, 1, 1]);
    judge.accepts("2 of two first strings", &two, 2, [2, 134, 1, 1]);
    judge.refuses("3 of two first strings", &two, 3, 8);
}

/// Three in each list, all equal.
fn of_six(judge: &mut Judge) {
    let names = list(&[b"S", b"S", b"S"]);
    let image = both(&names, &names);
    for (number, at, ordinal) in [(1, 129, 1), (2, 133, 2), (3, 137, 3)] {
        let name = format!("{number} of 6");
        judge.accepts(&name, &image, number, [number, at, 1, ordinal]);
        let (number, at) = (number + 3, at + 13);
        let name = format!("{number} of 6");
        judge.accepts(&name, &image, number, [number, at, 1, ordinal]);
    }
    for number in [0, 7, 8].into_iter().chain(GREAT) {
        judge.refuses(&format!("{number} of 6"), &image, number, 8);
    }
    let without = image.ne_word(0x20, 0);
    judge.accepts("3 of 3", &without, 3, [3, 137, 1, 3]);
    judge.refuses("4 of 3", &without, 4, 8);
}

fn of_none(judge: &mut Judge) {
    for number in [0, 1, 2].into_iter().chain(GREAT) {
        let name = format!("{number} of 0");
        judge.refuses(&name, &resident(&[0]), number, 8);
        judge.refuses(&name, &both(&[0], &[0]), number, 8);
    }
}

/// The bytes there would be strings.
fn behind_the_lists(judge: &mut Judge) {
    let twice = [list(&[b"A", b"B"]), list(&[b"C", b"D"])].concat();
    let image = resident(&twice);
    judge.accepts("2 of 2", &image, 2, [2, 133, 1, 2]);
    judge.refuses("3 of 2 with strings behind", &image, 3, 8);
    let image = both(&list(&[b"M"]), &twice);
    judge.accepts("3 of 3", &image, 3, [3, 138, 1, 2]);
    judge.refuses("4 of 3 with strings behind", &image, 4, 8);
}

fn great_numbers(judge: &mut Judge) {
    let image = both(&list(&[b"M", b"A"]), &list(&[b"D"]));
    judge.refuses_above_3(&image, 8);
}

/// Each string has an ordinal word of its own, so that none is taken for
/// another.
fn past_65_535(judge: &mut Judge) {
    let mut names = Vec::new();
    for number in 1..=70_000u32 {
        names.extend(string(b"n", (number / 2) as u16));
    }
    names.push(0);
    let image = both(&names, &list(&[b"D"]));
    for number in [
        1, 2, 255, 256, 257, 32_768, 65_535, 65_536, 65_537, 65_538, 69_999, 70_000,
    ] {
        let fields = [number, 125 + 4 * number, 1, number / 2];
        judge.accepts(&format!("{number} of 70,001"), &image, number, fields);
    }
    let fields = [70_001, 280_130, 1, 1];
    judge.accepts("70,001 of 70,001", &image, 70_001, fields);
    for number in [0, 70_002, 131_072, 131_073, 0x0100_0001, 0x8000_0001] {
        judge.refuses(&format!("{number} of 70,001"), &image, number, 8);
    }
}
