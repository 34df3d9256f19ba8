//! Refusals 10 and 11: the iterated flag and the allocation.

use super::{module, Judge, Minimal};

pub fn edges(judge: &mut Judge) {
    iterated(judge);
    flags_are_whole(judge);
    allocation(judge);
    great_allocations(judge);
}

/// 8 stored bytes at 136, with room for an empty record list.
fn flagged(flags: u16) -> Minimal {
    module(&[[136, 8, flags, 8]]).length(146)
}

fn iterated(judge: &mut Judge) {
    for flags in [0x0008, 0x0108, 0x000F, 0xFFFF] {
        judge.refuses(&format!("flags {flags:04X}h"), &flagged(flags), 1, 10);
    }
    let none = |flags| module(&[[0, 8, flags, 8]]);
    judge.refuses("iterated with sector 0", &none(0x0008), 1, 10);
    judge.refuses("iterated, sector 0, records", &none(0x0108), 1, 10);
}

/// The flag word is reported whole; each bit alone, but for the iterated one.
fn flags_are_whole(judge: &mut Judge) {
    for bit in (0..16).filter(|bit| *bit != 3) {
        let flags = 1u16 << bit;
        let values = [136, 8, u32::from(flags), 8, 0];
        judge.accepts(&format!("flags {flags:04X}h"), &flagged(flags), 1, values);
    }
    let values = [136, 8, 0xFFF7, 8, 0];
    judge.accepts("flags FFF7h", &flagged(0xFFF7), 1, values);
    let one = flagged(0xFFF7).put_word(144, 1).length(154);
    judge.accepts("flags FFF7h, 1 record", &one, 1, [136, 8, 0xFFF7, 8, 1]);
    let none = module(&[[0, 8, 0xFEF7, 8]]);
    judge.accepts("flags FEF7h, sector 0", &none, 1, [0, 0, 0xFEF7, 8, 0]);
}

/// 8 stored bytes.
fn allocation(judge: &mut Judge) {
    let room = |allocation| module(&[[136, 8, 0, allocation]]).length(144);
    judge.accepts("allocation 8", &room(8), 1, [136, 8, 0, 8, 0]);
    judge.refuses("allocation 7", &room(7), 1, 11);
    judge.refuses("allocation 1", &room(1), 1, 11);
    judge.accepts("allocation 9", &room(9), 1, [136, 8, 0, 9, 0]);
    judge.accepts("allocation 256", &room(256), 1, [136, 8, 0, 256, 0]);
    judge.accepts("allocation FFFFh", &room(0xFFFF), 1, [136, 8, 0, 65_535, 0]);
    judge.accepts("allocation 0", &room(0), 1, [136, 8, 0, 65_536, 0]);
}

/// About 65,536, and sector 0, where 11 is never given.
fn great_allocations(judge: &mut Judge) {
    let room = |length, allocation| module(&[[136, length, 0, allocation]]).length(65_672);
    let whole = [136, 65_536, 0, 65_536, 0];
    judge.accepts("length 0, allocation 0", &room(0, 0), 1, whole);
    judge.refuses("length 0, allocation FFFFh", &room(0, 0xFFFF), 1, 11);
    judge.refuses("length 0, allocation 1", &room(0, 1), 1, 11);
    let most = [136, 65_535, 0, 65_535, 0];
    judge.accepts(
        "length and allocation FFFFh",
        &room(0xFFFF, 0xFFFF),
        1,
        most,
    );
    judge.refuses("length FFFFh, one less", &room(0xFFFF, 0xFFFE), 1, 11);
    let high = [136, 0x8000, 0, 0x8000, 0];
    judge.accepts(
        "length and allocation 8000h",
        &room(0x8000, 0x8000),
        1,
        high,
    );
    judge.refuses("length 8000h, 7FFFh", &room(0x8000, 0x7FFF), 1, 11);
    for (length, allocation) in [(0, 1), (8, 7), (0xFFFF, 1), (0, 0xFFFF)] {
        let none = module(&[[0, length, 0, allocation]]);
        let values = [0, 0, 0, u32::from(allocation), 0];
        let name = format!("sector 0, {length} in {allocation}");
        judge.accepts(&name, &none, 1, values);
    }
}
