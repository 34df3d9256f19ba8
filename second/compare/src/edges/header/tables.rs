//! Refusal 7: the sized tables, but for the own edges of those that the query
//! reads.

use super::{reads, HeaderEdges, Judge, Table};

pub fn edges<Q: HeaderEdges>(judge: &mut Judge<Q>) {
    segment_table(judge);
    if !reads::<Q>(Table::Modules) {
        module_table(judge);
    }
    if !reads::<Q>(Table::Entries) {
        entry_table(judge);
    }
    nonresident_table(judge);
    size_0(judge);
}

/// 8 bytes for each segment, from 128 on; what stands behind the first record
/// is no matter here. The products of the longer ones pass 16 bits.
fn segment_table<Q: HeaderEdges>(judge: &mut Judge<Q>) {
    let segments = |count| Q::plain().ne_word(0x1C, count);
    let ends = [
        (3, 152),
        (8_191, 65_656),
        (8_192, 65_664),
        (65_535, 524_408),
    ];
    for (count, end) in ends {
        let name = format!("{count} segments");
        let whole = segments(count).length(end);
        judge.accepts_plain(&format!("{name} end the image"), &whole);
        judge.refuses_asked(&format!("{name}, one past"), &whole.length(end - 1), 7);
    }
    judge.accepts_plain("2 segments end the image", &segments(2));
    judge.refuses_asked("3 segments, 8 past", &segments(3), 7);
    judge.refuses_asked("8,192 segments in 144 bytes", &segments(8_192), 7);
    let far = Q::plain().ne_word(0x22, 0xFFFF);
    judge.refuses_asked("segment table at 65,599", &far, 7);
    judge.refuses_asked("the same, one past", &far.length(65_606), 7);
}

/// 2 bytes for each module; places count from the NE header at 64.
fn module_table<Q: HeaderEdges>(judge: &mut Judge<Q>) {
    let modules = |count, place| {
        let image = Q::plain().ne_word(0x1E, count);
        image.ne_word(0x28, place)
    };
    judge.accepts_plain("1 module ends the image", &modules(1, 78));
    judge.refuses_asked("1 module, one past", &modules(1, 79), 7);
    judge.refuses_asked("1 module at the end", &modules(1, 80), 7);
    judge.accepts_plain("40 modules from the header on", &modules(40, 0));
    judge.refuses_asked("40 modules, one past", &modules(40, 1), 7);
    judge.refuses_asked("41 modules, two past", &modules(41, 0), 7);
    judge.refuses_asked("32,768 modules in 144 bytes", &modules(32_768, 0), 7);
    let most = modules(65_535, 0xFFFF);
    let whole = most.clone().length(196_669);
    judge.accepts_plain("65,535 modules at 65,599", &whole);
    judge.refuses_asked("the same, one past", &most.length(196_668), 7);
    judge.accepts_plain("no modules at FFFFh", &modules(0, 0xFFFF));
}

/// The bytes themselves aren't read.
fn entry_table<Q: HeaderEdges>(judge: &mut Judge<Q>) {
    let entries = |bytes, place| {
        let image = Q::plain().ne_word(0x06, bytes);
        image.ne_word(0x04, place)
    };
    judge.accepts_plain("1 entry byte ends the image", &entries(1, 79));
    judge.refuses_asked("1 entry byte, one past", &entries(1, 80), 7);
    judge.accepts_plain("80 entry bytes from the header on", &entries(80, 0));
    judge.refuses_asked("81 entry bytes, one past", &entries(81, 0), 7);
    judge.refuses_asked("80 entry bytes, one past", &entries(80, 1), 7);
    let most = entries(0xFFFF, 0xFFFF);
    judge.refuses_asked("entry place and bytes FFFFh", &most, 7);
    let whole = most.clone().length(131_134);
    judge.accepts_plain("65,535 entry bytes at 65,599", &whole);
    judge.refuses_asked("the same, one past", &most.length(131_133), 7);
    judge.accepts_plain("no entry bytes at FFFFh", &entries(0, 0xFFFF));
}

/// The place counts from the file's start. For a query that reads it, the list
/// is empty wherever it starts with 0; at 0 it is one string of 4Dh bytes.
fn nonresident_table<Q: HeaderEdges>(judge: &mut Judge<Q>) {
    let names = |bytes, place| {
        let image = Q::plain().ne_word(0x20, bytes);
        image.ne_dword(0x2C, place)
    };
    judge.accepts_plain("1 name byte ends the image", &names(1, 143));
    judge.refuses_asked("1 name byte, one past", &names(1, 144), 7);
    judge.accepts_plain("144 name bytes from 0 on", &names(144, 0));
    judge.refuses_asked("145 name bytes, one past", &names(145, 0), 7);
    judge.refuses_asked("144 name bytes, one past", &names(144, 1), 7);
    let outside = [
        (1, 0xFFFF_FFFF),
        (0xFFFF, 0xFFFF_FFFF),
        (0xFFFF, 0xFFFF_0001),
        (1, 0x8000_0000),
        (1, 0x0001_0000),
    ];
    for (bytes, place) in outside {
        let name = format!("{bytes} name bytes at {place:X}h");
        judge.refuses_asked(&name, &names(bytes, place), 7);
    }
    let far = names(0xFFFF, 0x0001_0000);
    let whole = far.clone().length(131_071);
    judge.accepts_plain("65,535 name bytes at 10000h", &whole);
    judge.refuses_asked("the same, one past", &far.length(131_070), 7);
}

/// A table of size 0 is empty and its place isn't looked at.
fn size_0<Q: HeaderEdges>(judge: &mut Judge<Q>) {
    let mut image = Q::plain().ne_dword(0x2C, 0xFFFF_FFFF);
    judge.accepts_plain("no name bytes at FFFFFFFFh", &image);
    for (offset, table) in [(0x04, Table::Entries), (0x28, Table::Modules)] {
        if !reads::<Q>(table) {
            image = image.ne_word(offset, 0xFFFF);
        }
    }
    judge.accepts_plain("all empty tables far outside", &image);
}
