//! Refusal 15: the ordinal isn't covered, or is null.

use super::{
    ended, fixed, in_fixed, in_movable, module, movable, nulls, plain, Judge, Minimal, GREAT, PLAIN,
};

pub fn edges(judge: &mut Judge) {
    of_one(judge);
    of_none(judge);
    of_255(judge);
    across_bundles(judge);
    values(judge);
    four_billion(judge);
}

fn of_one(judge: &mut Judge) {
    judge.refuses("0 of 1", &plain(), 0, 15);
    judge.accepts("1 of 1", &plain(), 1, PLAIN);
    judge.refuses("2 of 1", &plain(), 2, 15);
    for number in GREAT {
        judge.refuses(&format!("{number} of 1"), &plain(), number, 15);
    }
}

/// Empty tables, and tables with null ordinals alone.
fn of_none(judge: &mut Judge) {
    judge.refuses_all("no tables", &Minimal::new(), 15);
    let far = plain().ne_word(0x06, 0).ne_word(0x04, 0xFFFF);
    judge.refuses_all("size 0, place FFFFh", &far, 15);
    let near = plain().ne_word(0x06, 0);
    judge.refuses_all("size 0, at a sound table", &near, 15);
    judge.refuses_all("only an end byte", &module(1, &[0]), 15);
    judge.refuses_all("no segments, an end byte", &module(0, &[0]), 15);
    judge.refuses_all("no segments, 1 null", &module(0, &[1, 0, 0]), 15);
    judge.refuses_all("600 null", &module(0, &ended(&[&nulls(600)])), 15);
}

/// The greatest count of one bundle.
fn of_255(judge: &mut Judge) {
    let kinds = [
        ("fixed", fixed(1, 255), in_fixed(1)),
        ("movable", movable(1, 255), in_movable(1)),
    ];
    for (kind, bundle, entry) in kinds {
        let image = module(1, &ended(&[&bundle, &bundle]));
        for number in [1, 2, 254, 255, 256, 509, 510] {
            judge.accepts(&format!("{number} of 510 {kind}"), &image, number, entry);
        }
        for number in [0, 511, 512, 65_536 + 255] {
            judge.refuses(&format!("{number} of 510 {kind}"), &image, number, 15);
        }
    }
}

/// Ordinals are counted through all bundles; null ones use theirs up.
fn across_bundles(judge: &mut Judge) {
    let bundles: [&[u8]; 8] = [
        &[3, 0],
        &[2, 1, 0x10, 0x11, 0x12, 0x20, 0x21, 0x22],
        &[1, 0],
        &[1, 255, 0x30, 0xCD, 0x3F, 2, 0x31, 0x32],
        &[255, 0],
        &[2, 0],
        &[1, 2, 0x40, 0x41, 0x42],
        &[1, 0],
    ];
    let image = module(2, &ended(&bundles));
    judge.accepts("4 of 266", &image, 4, [1, 0x1211, 0x10]);
    judge.accepts("5 of 266", &image, 5, [1, 0x2221, 0x20]);
    judge.accepts("7 of 266", &image, 7, [2, 0x3231, 0x30]);
    judge.accepts("265 of 266", &image, 265, [2, 0x4241, 0x40]);
    for number in [0, 1, 2, 3, 6, 8, 9, 262, 263, 264, 266, 267, 268] {
        judge.refuses(&format!("{number} of 266"), &image, number, 15);
    }
    for number in [4, 5, 7, 265] {
        let number = 65_536 + number;
        judge.refuses(&format!("{number} of 266"), &image, number, 15);
    }
}

/// The entry itself: flag, then offset word, low byte first.
fn values(judge: &mut Judge) {
    let of = |flag: u8, low: u8, high: u8| {
        let fixed = [1, 3, flag, low, high];
        let movable = [1, 255, flag, 0xCD, 0x3F, 2, low, high];
        module(3, &ended(&[&fixed, &movable]))
    };
    for (low, high, offset) in [
        (0x00, 0x00, 0x0000),
        (0x01, 0x00, 0x0001),
        (0xFF, 0x00, 0x00FF),
        (0x00, 0x01, 0x0100),
        (0x00, 0x80, 0x8000),
        (0xFF, 0x7F, 0x7FFF),
        (0xFF, 0xFF, 0xFFFF),
    ] {
        let image = of(0x5A, low, high);
        judge.accepts(&format!("fixed {offset:X}h"), &image, 1, [3, offset, 0x5A]);
        judge.accepts(
            &format!("movable {offset:X}h"),
            &image,
            2,
            [2, offset, 0x5A],
        );
    }
}

fn four_billion(judge: &mut Judge) {
    let image = module(1, &ended(&[&fixed(1, 3)]));
    judge.refuses_above_3(&image, 15);
}
