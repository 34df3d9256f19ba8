//! Refusals 9, 10 and 11 of the segment that is prepared.

use super::super::fixups::{chained, module, Module, OFFSET};
use super::{asked, prepared, refused, Judge};
use crate::answer::Answer;

pub fn edges(judge: &mut Judge) {
    stored_bytes(judge);
    record_list(judge);
    flags(judge);
    allocation(judge);
    without_stored_bytes(judge);
    great_places(judge);
}

const FOUR: [u8; 4] = [0xFF, 0xFF, 7, 8];
const DONE: [u8; 4] = [0x34, 0x12, 7, 8];

/// One chained offset at 0 of four bytes.
fn four() -> Module {
    module(&FOUR, &[chained(OFFSET, 0)])
}

/// The image ends so many bytes early.
fn cut(judge: &mut Judge, name: &str, module: &Module, by: usize) {
    let image = module.image();
    let length = image.bytes().len();
    let request = asked(module);
    judge.expects(name, &image.length(length - by), &request, &refused(9, 0));
}

fn stored_bytes(judge: &mut Judge) {
    let plain = Module { flags: 0, ..four() };
    judge.prepares("stored bytes end the image", &plain, &FOUR, &[0; 4], 0);
    cut(judge, "stored bytes, one past", &plain, 1);
    cut(judge, "stored bytes, all past", &plain, 4);
}

fn record_list(judge: &mut Judge) {
    judge.prepares("a record ends the image", &four(), &DONE, &[1, 1, 0, 0], 1);
    for by in [1, 7, 8, 9, 10, 11] {
        cut(judge, &format!("a record, {by} past"), &four(), by);
    }
    let none = module(&FOUR, &[]);
    judge.prepares("a count of 0 ends the image", &none, &FOUR, &[0; 4], 0);
    cut(judge, "a count of 0, half inside", &none, 1);
    cut(judge, "a count of 0, outside", &none, 2);
}

fn flags(judge: &mut Judge) {
    for flags in [0x0100, 0xFFF7, 0x0101, 0x0180] {
        let flagged = Module { flags, ..four() };
        let name = format!("flags {flags:04X}h");
        judge.prepares(&name, &flagged, &DONE, &[1, 1, 0, 0], 1);
        let flags = flags | 8;
        let iterated = Module { flags, ..four() };
        judge.refuses_at(&format!("flags {flags:04X}h"), &iterated, 10, 0);
    }
    let without = Module {
        flags: 0xFEF7,
        ..four()
    };
    judge.prepares("flags FEF7h", &without, &FOUR, &[0; 4], 0);
}

fn allocation(judge: &mut Judge) {
    for under in [1, 3] {
        let name = format!("allocation {under}");
        judge.refuses_at(&name, &four().allocation(under), 11, 0);
    }
    for more in [0, 1, 2, 300] {
        let bytes = [&DONE[..], &vec![0; more]].concat();
        let module = four().allocation(4 + more as u16);
        let name = format!("allocation {}", 4 + more);
        judge.prepares(&name, &module, &bytes, &[1, 1, 0, 0], 1);
    }
    let bytes = [&DONE[..], &vec![0; 65_532]].concat();
    let whole = four().allocation(0);
    judge.prepares("allocation 0", &whole, &bytes, &[1, 1, 0, 0], 1);
}

/// There is nothing that 11 could be about; records are 9.
fn without_stored_bytes(judge: &mut Judge) {
    for allocation in [1, 2, 300] {
        let none = module(&[], &[]).allocation(allocation);
        let name = format!("sector 0, allocation {allocation}");
        judge.refuses_at(&format!("{name}, records"), &none, 9, 0);
        let plain = Module { flags: 0, ..none };
        let zeros = vec![0; usize::from(allocation)];
        judge.prepares(&name, &plain, &zeros, &[], 0);
        let iterated = Module {
            flags: 0x0108,
            ..plain
        };
        judge.refuses_at(&format!("{name}, iterated"), &iterated, 10, 0);
    }
}

/// Sector FFFFh at a shift of 8 has the last 256 bytes of the longest image: 238
/// stored bytes, a count, a record and 8 more. At greater shifts it lies
/// outside, at a place of up to 31 bits.
fn great_places(judge: &mut Judge) {
    let stored = [&FOUR[..], &[9; 234]].concat();
    let small = module(&stored, &[chained(OFFSET, 0)]);
    let (start, end) = (0xFFFF00, 0x100_0000);
    let list = [&[1, 0], &small.records.concat()[..]].concat();
    let tail = [&stored[..], &list, &[0; 8]].concat();
    let image = small.image().length(end).put(start, &tail);
    let placed = |length, shift| {
        let row = [0xFFFF, length, 0x0100, length];
        image.clone().ne_word(0x32, shift).record(128, row)
    };
    let request = asked(&small);
    let bytes = [&DONE[..], &[9; 234]].concat();
    let done = Answer::Accepted(prepared(&request, &bytes, &[1, 1], 1));
    let name = "the last sector of 16,777,216 bytes";
    judge.expects(name, &placed(238, 8), &request, &done);
    let past = placed(238, 8).length(end - 9);
    judge.expects(&format!("{name}, cut"), &past, &request, &refused(9, 0));
    for shift in [9, 14, 15] {
        let name = format!("sector FFFFh, shift {shift}");
        judge.expects(&name, &placed(238, shift), &request, &refused(9, 0));
    }
}
