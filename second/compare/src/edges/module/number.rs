//! Refusal 8: the number asked for.

use super::{modules, one, Judge, Minimal, GREAT};

pub fn edges(judge: &mut Judge) {
    of_one(judge);
    of_three(judge);
    of_none(judge);
    of_the_most(judge);
}

fn of_one(judge: &mut Judge) {
    let image = one(b"\x02AB");
    judge.accepts("1 of 1", &image, 1, [131, 2]);
    for number in [0, 2, 3].into_iter().chain(GREAT) {
        judge.refuses(&format!("{number} of 1"), &image, number, 8);
    }
}

/// The references need not be in order, and may be equal.
fn of_three(judge: &mut Judge) {
    let image = modules(&[5, 1, 5], b"\0\x03ABC\x01D");
    judge.accepts("1 of 3", &image, 1, [140, 1]);
    judge.accepts("2 of 3", &image, 2, [136, 3]);
    judge.accepts("3 of 3", &image, 3, [140, 1]);
    for number in [0, 4, 5].into_iter().chain(GREAT) {
        judge.refuses(&format!("{number} of 3"), &image, number, 8);
    }
    // What stands behind the table would be a fourth reference.
    let less = image.ne_word(0x1E, 2);
    judge.accepts("2 of 2", &less, 2, [136, 3]);
    judge.refuses("3 of 2 with a reference behind", &less, 3, 8);
}

fn of_none(judge: &mut Judge) {
    judge.refuses_all("no tables", &Minimal::new(), 8);
    judge.refuses("0 of no tables", &Minimal::new(), 0, 8);
    let near = one(b"\x02AB").ne_word(0x1E, 0);
    judge.refuses_all("none, at a sound reference", &near, 8);
}

/// Each reference is another byte of the imported names.
fn of_the_most(judge: &mut Judge) {
    let references: Vec<u8> = (0..65_535).flat_map(u16::to_le_bytes).collect();
    let image = Minimal::new()
        .length(128 + references.len())
        .ne_word(0x1E, 65_535)
        .ne_word(0x28, 64)
        .put(128, &references);
    // The imported names start with the NE header, at 64. The references' own
    // bytes are the strings: that at 364 is the low byte of 0076h, and that at
    // 65,598 the low byte of 7FDFh.
    judge.accepts("301 of 65,535", &image, 301, [365, 0x76]);
    judge.accepts("65,535 of 65,535", &image, 65_535, [65_599, 0xDF]);
    judge.refuses("65,536 of 65,535", &image, 65_536, 8);
    judge.refuses("65,537 of 65,535", &image, 65_537, 8);
    judge.refuses("0 of 65,535", &image, 0, 8);
    judge.refuses("FFFFFFFFh of 65,535", &image, 0xFFFF_FFFF, 8);
}
