//! Refusal 9 for the record list, which starts right after the stored bytes.

use super::{module, Judge, Minimal};

pub fn edges(judge: &mut Judge) {
    count_word(judge);
    lists(judge);
    great_counts(judge);
    after_65_536_bytes(judge);
    sector_0(judge);
    without_the_flag(judge);
}

/// 8 stored bytes at 136 and a record count at 144, in so many bytes.
fn counted(count: u16, length: usize) -> Minimal {
    let image = module(&[[136, 8, 0x0100, 8]]).length(146);
    image.put_word(144, count).length(length)
}

/// The answer for so many records.
fn with(records: u32) -> [u32; 5] {
    [136, 8, 0x0100, 8, records]
}

fn count_word(judge: &mut Judge) {
    judge.accepts("count 0 ends the image", &counted(0, 146), 1, with(0));
    judge.accepts("count 0, a byte behind", &counted(0, 147), 1, with(0));
    judge.refuses("count word half outside", &counted(0, 145), 1, 9);
    judge.refuses("count word outside", &counted(0, 144), 1, 9);
    judge.refuses("stored bytes one past", &counted(0, 143), 1, 9);
}

fn lists(judge: &mut Judge) {
    judge.accepts("1 record ends the image", &counted(1, 154), 1, with(1));
    judge.refuses("1 record, one past", &counted(1, 153), 1, 9);
    judge.refuses("1 record, only its count", &counted(1, 146), 1, 9);
    judge.accepts("2 records end the image", &counted(2, 162), 1, with(2));
    judge.refuses("2 records, one past", &counted(2, 161), 1, 9);
    judge.accepts("a record and more", &counted(1, 500), 1, with(1));
    judge.accepts("256 records", &counted(256, 2_194), 1, with(256));
    judge.refuses("256 records, one past", &counted(256, 2_193), 1, 9);
    // The records' content isn't looked at.
    let wild = counted(1, 154).put(146, &[0xFF; 8]);
    judge.accepts("a record of FFh", &wild, 1, with(1));
    // The list may lie over the headers: it starts at 8, with a count of 3.
    let over = module(&[[1, 7, 0x0100, 7]]).put_word(8, 3);
    judge.accepts("a list over the MZ header", &over, 1, [1, 7, 0x0100, 7, 3]);
}

/// Products past 16 bits.
fn great_counts(judge: &mut Judge) {
    let most = counted(65_535, 524_426);
    judge.accepts("65,535 records", &most, 1, with(65_535));
    judge.refuses("65,535 records, one past", &most.length(524_425), 1, 9);
    let full = counted(8_192, 65_682);
    judge.accepts("8,192 records", &full, 1, with(8_192));
    judge.refuses("8,192 records, one past", &full.length(65_681), 1, 9);
    judge.refuses("8,192 records, only the count", &counted(8_192, 146), 1, 9);
    judge.refuses(
        "65,535 records in 65,674 bytes",
        &counted(65_535, 65_674),
        1,
        9,
    );
    judge.refuses("32,768 records in 146 bytes", &counted(32_768, 146), 1, 9);
}

fn after_65_536_bytes(judge: &mut Judge) {
    let whole = module(&[[136, 0, 0x0100, 0]]).length(65_682);
    let whole = whole.put_word(65_672, 1);
    let values = [136, 65_536, 0x0100, 65_536, 1];
    judge.accepts("a record after 65,536 bytes", &whole, 1, values);
    judge.refuses("the same, one past", &whole.clone().length(65_681), 1, 9);
    judge.refuses("its count half outside", &whole.length(65_673), 1, 9);
    // The list starts after the stored length, not after the allocation.
    let room = module(&[[136, 8, 0x0100, 16]]).length(154);
    let room = room.put_word(144, 1).put_word(152, 0xFFFF);
    judge.accepts(
        "allocation past the list",
        &room,
        1,
        [136, 8, 0x0100, 16, 1],
    );
}

/// Records with sector 0 are refused, whatever else is there.
fn sector_0(judge: &mut Judge) {
    let none = |length, allocation| module(&[[0, length, 0x0100, allocation]]);
    judge.refuses("0100h with sector 0", &none(0, 1), 1, 9);
    judge.refuses("0100h with sector 0, length 8", &none(8, 8), 1, 9);
    judge.refuses("0100h with sector 0, length 1", &none(1, 0), 1, 9);
    // "MZ" would be a count of 23,117, and all those records fit.
    let fits = none(0, 1).length(200_000);
    judge.refuses("0100h with sector 0, room at 0", &fits, 1, 9);
    let all = module(&[[0, 8, 0xFFF7, 8]]);
    judge.refuses("FFF7h with sector 0", &all, 1, 9);
}

/// Nothing behind the stored bytes is looked at.
fn without_the_flag(judge: &mut Judge) {
    let behind = |flags, length| {
        let image = module(&[[136, 8, flags, 8]]).length(146);
        image.put_word(144, 0xFFFF).length(length)
    };
    judge.accepts("FFFFh behind", &behind(0, 146), 1, [136, 8, 0, 8, 0]);
    judge.accepts("half a word behind", &behind(0, 145), 1, [136, 8, 0, 8, 0]);
    judge.accepts("nothing behind", &behind(0, 144), 1, [136, 8, 0, 8, 0]);
    let values = [136, 8, 0xFEF7, 8, 0];
    judge.accepts("all other flags", &behind(0xFEF7, 146), 1, values);
    judge.accepts("flag 0001h", &behind(1, 144), 1, [136, 8, 1, 8, 0]);
}
