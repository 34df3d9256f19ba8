//! The values of an accepted header.

use super::{Judge, Minimal, Whole};

pub fn edges(judge: &mut Judge) {
    every_field(judge);
    units(judge);
    words(judge);
    headers(judge);
}

/// Each field has a number of its own.
fn every_field(judge: &mut Judge) {
    let image = Minimal::with_header_at(0x0100)
        .length(4_096)
        .ne_word(0x04, 0x0301)
        .ne_word(0x06, 0x0012)
        .ne_word(0x1C, 0x0034)
        .ne_word(0x1E, 0x0056)
        .ne_word(0x20, 0x0078)
        .ne_word(0x22, 0x0402)
        .ne_word(0x24, 0x0503)
        .ne_word(0x26, 0x0604)
        .ne_word(0x28, 0x0705)
        .ne_word(0x2A, 0x0806)
        .ne_dword(0x2C, 0x0907)
        .ne_word(0x32, 9);
    let fields = [
        0x0100, 512, 0x0502, 0x0034, 0x0805, 0x0056, 0x0401, 0x0012, 0x0907, 0x0078, 0x0704,
        0x0906, 0x0603,
    ];
    judge.accepts("every field", &image, Whole, fields);
}

fn units(judge: &mut Judge) {
    let units = [
        1, 2, 4, 8, 16, 32, 64, 128, 256, 512, 1_024, 2_048, 4_096, 8_192, 16_384, 32_768,
    ];
    for (shift, unit) in (0..).zip(units) {
        let image = Minimal::new().ne_word(0x32, shift);
        let fields = [64, unit, 64, 0, 64, 0, 64, 0, 0, 0, 64, 64, 64];
        judge.accepts(&format!("shift {shift}"), &image, Whole, fields);
    }
}

/// Where the header has a word, which field it is, and what is added to it.
const WORDS: [(usize, usize, u32); 10] = [
    (0x22, 2, 64),
    (0x1C, 3, 0),
    (0x28, 4, 64),
    (0x1E, 5, 0),
    (0x04, 6, 64),
    (0x06, 7, 0),
    (0x20, 9, 0),
    (0x26, 10, 64),
    (0x2A, 11, 64),
    (0x24, 12, 64),
];

/// Every bit of every word, in an image that has room for all tables.
fn words(judge: &mut Judge) {
    let bits = || (0..16).map(|bit| 1 << bit);
    for (offset, field, added) in WORDS {
        for word in bits().chain([0xFFFF]) {
            let image = Minimal::new().length(600_000).ne_word(offset, word);
            let mut fields = [64, 1, 64, 0, 64, 0, 64, 0, 0, 0, 64, 64, 64];
            fields[field] = u32::from(word) + added;
            judge.accepts(&format!("{word:X}h at {offset:X}h"), &image, Whole, fields);
        }
    }
}

/// Places that count from the NE header move with it; the nonresident names'
/// doesn't.
fn headers(judge: &mut Judge) {
    for place in [64, 65, 0xFFFF, 0x1_0000, 0x1_0040, 16_777_152] {
        let image = Minimal::with_header_at(place as usize).ne_dword(0x2C, 5);
        let fields = [
            place, 1, place, 0, place, 0, place, 0, 5, 0, place, place, place,
        ];
        judge.accepts(&format!("header at {place}"), &image, Whole, fields);
    }
}
