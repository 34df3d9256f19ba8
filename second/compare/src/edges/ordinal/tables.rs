//! Refusal 7: the entry table's place and bytes, and a segment table far off.

use super::{module, plain, Judge, Minimal, ONE_FIXED, PLAIN};

pub fn edges(judge: &mut Judge) {
    entry_table_ends(judge);
    great_places(judge);
    segment_table(judge);
    overlaps(judge);
}

/// The bytes after the end byte lie in the image too.
fn entry_table_ends(judge: &mut Judge) {
    judge.accepts("8 entry bytes end the image", &plain(), 1, PLAIN);
    judge.refuses_all("8 entry bytes, one past", &plain().length(143), 7);
    judge.refuses("9 entry bytes, one past", &plain().ne_word(0x06, 9), 1, 7);
    let last = |table: &[u8]| module(1, table);
    judge.accepts("the end byte ends the image", &last(&ONE_FIXED), 1, PLAIN);
    judge.refuses("the end byte past it", &last(&ONE_FIXED).length(141), 1, 7);
    judge.refuses("1 byte, the end byte", &last(&[0]), 1, 15);
    judge.refuses("1 byte, past", &last(&[0]).length(136), 1, 7);
    judge.refuses("65,535 entry bytes", &plain().ne_word(0x06, 0xFFFF), 1, 7);
    let at_end = plain().ne_word(0x04, 80);
    judge.refuses("8 entry bytes at the end", &at_end, 1, 7);
    judge.refuses_all("0 entry bytes at the end", &at_end.ne_word(0x06, 0), 15);
}

/// The table's place passes 16 bits: 64 + FFFFh.
fn great_places(judge: &mut Judge) {
    let far = plain().length(65_605).ne_word(0x04, 0xFFFF);
    let far = far.ne_word(0x06, 6).put(65_599, &ONE_FIXED);
    judge.accepts("entry table at 65,599", &far, 1, PLAIN);
    judge.refuses("the same, one past", &far.length(65_604), 1, 7);
    let most = plain().ne_word(0x04, 0xFFFF).ne_word(0x06, 0xFFFF);
    let whole = most.clone().length(131_134);
    judge.refuses_all("65,535 zeros at 65,599", &whole, 15);
    judge.refuses_all("the same, one past", &most.length(131_133), 7);
}

/// Only the count of segments matters here.
fn segment_table(judge: &mut Judge) {
    let far = plain().length(65_607).ne_word(0x22, 0xFFFF);
    judge.accepts("segment table at 65,599", &far, 1, PLAIN);
    judge.refuses("the same, one past", &far.length(65_606), 1, 7);
    let none = module(0, &[0]).ne_word(0x22, 0xFFFF);
    judge.refuses("no segments at FFFFh", &none, 1, 15);
    let most = plain().length(524_408).ne_word(0x1C, 0xFFFF);
    judge.accepts("65,535 segments over the table", &most, 1, PLAIN);
}

/// Tables may overlap the header and each other.
fn overlaps(judge: &mut Judge) {
    // The segment's record is the entry table's first 8 bytes.
    let shared = plain().ne_word(0x22, 72);
    judge.accepts("entry table over the segment table", &shared, 1, PLAIN);
    // "NE" is a bundle of 78 entries in segment 69. The first one is the
    // header's bytes 2 to 4, of which the last is the table's place.
    let header = Minimal::new()
        .length(680)
        .ne_word(0x02, 0x34A5)
        .ne_word(0x06, 237)
        .ne_word(0x1C, 69)
        .ne_word(0x22, 64);
    judge.accepts(
        "entry table over the NE header",
        &header,
        1,
        [69, 0x0034, 0xA5],
    );
    // The second one is bytes 5 to 7, with the table's size.
    judge.accepts("its second entry", &header, 2, [69, 0x00ED, 0x00]);
    judge.accepts("its last entry", &header, 78, [69, 0, 0]);
    judge.refuses("past its last entry", &header, 79, 15);
    judge.refuses("68 segments", &header.ne_word(0x1C, 68), 1, 13);
}
