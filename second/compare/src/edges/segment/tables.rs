//! Refusal 7: the segment table's records at its edge.

use super::{module, plain, Judge, Minimal, PLAIN};

pub fn edges(judge: &mut Judge) {
    segment_table(judge);
    size_0(judge);
    overlaps(judge);
}

/// Without stored bytes, so that the segment table may end the image.
const NO_SECTOR: [u16; 4] = [0, 0, 0, 1];
const NO_BYTES: [u32; 5] = [0, 0, 0, 1, 0];

fn segment_table(judge: &mut Judge) {
    let one = module(&[NO_SECTOR]);
    judge.accepts("1 segment ends the image", &one, 1, NO_BYTES);
    judge.refuses("1 segment, one past", &one.clone().length(135), 1, 7);
    judge.refuses("1 segment, 8 past", &one.length(128), 1, 7);
    // The table's place passes 16 bits: 64 + FFFFh.
    let far = Minimal::new()
        .length(65_607)
        .ne_word(0x1C, 1)
        .ne_word(0x22, 0xFFFF)
        .record(65_599, NO_SECTOR);
    judge.accepts("segment table at 65,599", &far, 1, NO_BYTES);
    judge.refuses("the same, one past", &far.length(65_606), 1, 7);
}

/// A table of size 0 is empty and its place isn't looked at.
fn size_0(judge: &mut Judge) {
    let segments = Minimal::new().ne_word(0x22, 0xFFFF);
    judge.refuses("no segments at FFFFh", &segments, 1, 8);
}

/// Tables may overlap the header and each other.
fn overlaps(judge: &mut Judge) {
    // The segment record is "NE", the word at 02, and the entry table's place
    // and bytes, which are flags and allocation here. 454Eh is 17,742.
    let header = Minimal::new()
        .length(17_750)
        .ne_word(0x1C, 1)
        .ne_word(0x02, 8)
        .ne_word(0x06, 8);
    let values = [17_742, 8, 0, 8, 0];
    judge.accepts("segment table over the NE header", &header, 1, values);
    let all = plain()
        .ne_word(0x04, 64)
        .ne_word(0x06, 8)
        .ne_word(0x1E, 4)
        .ne_word(0x28, 64)
        .ne_word(0x20, 8)
        .ne_dword(0x2C, 128);
    judge.accepts("four tables over each other", &all, 1, PLAIN);
}
