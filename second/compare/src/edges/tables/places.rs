//! Places behind the image: of tables of size 0, and of those without a size.

use super::{Judge, Minimal, Whole};

pub fn edges(judge: &mut Judge) {
    greatest(judge);
    nonresident(judge);
}

/// The header ends the longest image, and each place is the last that a word
/// can say.
fn greatest(judge: &mut Judge) {
    let words = [0x04, 0x22, 0x24, 0x26, 0x28, 0x2A];
    let last = Minimal::with_header_at(16_777_152).ne_dword(0x2C, 0xFFFF_FFFF);
    let image = words
        .into_iter()
        .fold(last, |image, offset| image.ne_word(offset, 0xFFFF));
    let far = 16_777_152 + 65_535;
    let fields = [
        16_777_152,
        1,
        far,
        0,
        far,
        0,
        far,
        0,
        0xFFFF_FFFF,
        0,
        far,
        far,
        far,
    ];
    judge.accepts("the greatest places", &image, Whole, fields);
}

/// Every bit of a place that counts from the file's start.
fn nonresident(judge: &mut Judge) {
    for place in (0..32).map(|bit| 1 << bit).chain([0xFFFF_FFFF]) {
        let image = Minimal::new().ne_dword(0x2C, place);
        let fields = [64, 1, 64, 0, 64, 0, 64, 0, place, 0, 64, 64, 64];
        judge.accepts(&format!("no names at {place:X}h"), &image, Whole, fields);
    }
}
