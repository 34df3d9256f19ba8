//! Refusal 9 for the stored bytes, and sector 0.

use super::{module, plain, Judge, Minimal, PLAIN};

pub fn edges(judge: &mut Judge) {
    ends(judge);
    length_0(judge);
    great_starts(judge);
    sixteen_megabytes(judge);
    overlaps(judge);
    sector_0(judge);
}

fn ends(judge: &mut Judge) {
    judge.accepts("8 bytes end the image", &plain(), 1, PLAIN);
    judge.refuses("8 bytes, one past", &plain().length(143), 1, 9);
    judge.refuses("8 bytes, all past", &plain().length(136), 1, 9);
    let at = |sector, length| plain().record(128, [sector, length, 0, 0]);
    judge.accepts(
        "1 byte ends the image",
        &at(143, 1),
        1,
        [143, 1, 0, 65_536, 0],
    );
    judge.refuses("1 byte at the end", &at(144, 1), 1, 9);
    judge.refuses("1 byte past the end", &at(145, 1), 1, 9);
    judge.refuses("FFFFh bytes", &at(136, 0xFFFF), 1, 9);
    // In 16 bits these ends would be 7 and 8.
    judge.refuses("8 bytes at FFFFh", &at(0xFFFF, 8), 1, 9);
    judge.refuses("FFFFh bytes at 9", &at(9, 0xFFFF), 1, 9);
}

/// Length 0 and allocation 0 are 65,536.
fn length_0(judge: &mut Judge) {
    let whole = module(&[[136, 0, 0, 0]]).length(65_672);
    let values = [136, 65_536, 0, 65_536, 0];
    judge.accepts("length 0 ends the image", &whole, 1, values);
    judge.refuses("length 0, one past", &whole.clone().length(65_671), 1, 9);
    judge.refuses("length 0 in 144 bytes", &whole.length(144), 1, 9);
    let most = module(&[[136, 0xFFFF, 0, 0xFFFF]]).length(65_671);
    let values = [136, 65_535, 0, 65_535, 0];
    judge.accepts("length FFFFh ends the image", &most, 1, values);
    judge.refuses("length FFFFh, one past", &most.length(65_670), 1, 9);
    let room = module(&[[136, 1, 0, 0]]).length(137);
    judge.accepts("allocation 0", &room, 1, [136, 1, 0, 65_536, 0]);
}

/// Starts past 16 bits; the products don't wrap.
fn great_starts(judge: &mut Judge) {
    let at = |sector, length, shift, end| {
        let image = module(&[[sector, length, 0, 0]]).ne_word(0x32, shift);
        image.length(end)
    };
    let values = [65_536, 8, 0, 65_536, 0];
    judge.accepts("start 10000h", &at(0x8000, 8, 1, 65_544), 1, values);
    judge.refuses("start 10000h, one past", &at(0x8000, 8, 1, 65_543), 1, 9);
    let values = [1_048_560, 8, 0, 65_536, 0];
    judge.accepts("start FFFF0h", &at(0xFFFF, 8, 4, 1_048_568), 1, values);
    judge.refuses("start FFFF0h, one past", &at(0xFFFF, 8, 4, 1_048_567), 1, 9);
    judge.refuses("sector FFFFh, shift 15", &at(0xFFFF, 8, 15, 144), 1, 9);
    // The end passes 31 bits.
    judge.refuses("the same with length 0", &at(0xFFFF, 0, 15, 144), 1, 9);
    judge.refuses("sector 8000h, shift 15", &at(0x8000, 8, 15, 40_000), 1, 9);
    judge.refuses("sector 8000h, shift 1", &at(0x8000, 8, 1, 144), 1, 9);
}

fn sixteen_megabytes(judge: &mut Judge) {
    let at = |sector, length, shift| {
        let image = module(&[[sector, length, 0, 0]]).ne_word(0x32, shift);
        image.length(16_777_216)
    };
    let values = [16_776_704, 512, 0, 65_536, 0];
    judge.accepts("the last 512 of 16 MB", &at(0x7FFF, 512, 9), 1, values);
    judge.refuses("513 bytes, one past 16 MB", &at(0x7FFF, 513, 9), 1, 9);
    let values = [16_776_960, 256, 0, 65_536, 0];
    judge.accepts("sector FFFFh, shift 8", &at(0xFFFF, 256, 8), 1, values);
    judge.refuses("the same, one past", &at(0xFFFF, 257, 8), 1, 9);
    // The starts' low 24 bits are 0.
    judge.refuses("start 1000000h", &at(0x8000, 1, 9), 1, 9);
    judge.refuses("start 2000000h", &at(0x0400, 1, 15), 1, 9);
    judge.refuses("sector FFFFh, shift 15, in 16 MB", &at(0xFFFF, 1, 15), 1, 9);
}

/// Only ends are tested.
fn overlaps(judge: &mut Judge) {
    let at = |sector, length| plain().record(128, [sector, length, 0, 0]);
    judge.accepts("over the MZ header", &at(1, 63), 1, [1, 63, 0, 65_536, 0]);
    judge.accepts("over the NE header", &at(64, 64), 1, [64, 64, 0, 65_536, 0]);
    judge.accepts(
        "over its own record",
        &at(128, 8),
        1,
        [128, 8, 0, 65_536, 0],
    );
    judge.accepts(
        "over all but a byte",
        &at(1, 143),
        1,
        [1, 143, 0, 65_536, 0],
    );
    judge.refuses("over all but a byte, one past", &at(1, 144), 1, 9);
    let two = module(&[[144, 8, 0, 8], [148, 4, 0, 4]]).length(152);
    judge.accepts("over another segment", &two, 2, [148, 4, 0, 4, 0]);
}

/// No stored bytes, whatever the length says, and start 0 at every shift.
fn sector_0(judge: &mut Judge) {
    let none = |length, allocation| module(&[[0, length, 0, allocation]]);
    for length in [0, 1, 8, 136, 137, 0x8000, 0xFFFF] {
        let name = format!("sector 0, length {length}");
        judge.accepts(&name, &none(length, 1), 1, [0, 0, 0, 1, 0]);
    }
    let all = none(9, 0);
    judge.accepts("sector 0, allocation 0", &all, 1, [0, 0, 0, 65_536, 0]);
    let shifted = none(9, 3).ne_word(0x32, 15);
    judge.accepts("sector 0, shift 15", &shifted, 1, [0, 0, 0, 3, 0]);
    let header = Minimal::new()
        .ne_word(0x1C, 1)
        .ne_word(0x22, 0x38)
        .record(120, [0, 0, 0xFEF7, 3]);
    let values = [0, 0, 0xFEF7, 3, 0];
    judge.accepts("sector 0 in 128 bytes", &header, 1, values);
}
