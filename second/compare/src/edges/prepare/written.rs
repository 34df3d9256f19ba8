//! What is written: the bytes of each type, sums, zeros, and nothing else.

use super::super::fixups::{additive, chained, module, record, Module, Record};
use super::super::fixups::{ADDITIVE, FAR, LOW, OFFSET, SELECTOR};
use super::{asked, prepared, Judge};
use crate::answer::Answer;
use crate::calls::{Held, Preparing};

pub fn edges(judge: &mut Judge) {
    replaced(judge);
    added(judge);
    sums(judge);
    chains(judge);
    zeros(judge);
    lent_memory(judge);
}

const STORED: [u8; 6] = [0xFF, 0xFF, 0x80, 0x90, 0xA0, 0xB0];

fn one(judge: &mut Judge, name: &str, record: Record, bytes: [u8; 6], marks: [u8; 6]) {
    judge.prepares(name, &module(&STORED, &[record]), &bytes, &marks, 1);
}

fn replaced(judge: &mut Judge) {
    let rest = [0x80, 0x90, 0xA0, 0xB0];
    let with = |first, second| [first, second, rest[0], rest[1], rest[2], rest[3]];
    let two = [1, 1, 0, 0, 0, 0];
    one(judge, "low byte", chained(LOW, 0), with(0x34, 0xFF), two);
    one(judge, "selector", chained(SELECTOR, 0), with(0, 0x20), two);
    one(judge, "offset", chained(OFFSET, 0), with(0x34, 0x12), two);
    let far = [0x34, 0x12, 0x00, 0x20, 0xA0, 0xB0];
    one(
        judge,
        "far pointer",
        chained(FAR, 0),
        far,
        [1, 1, 1, 1, 0, 0],
    );
}

fn added(judge: &mut Judge) {
    let low = [0x33, 0xFF, 0x80, 0x90, 0xA0, 0xB0];
    one(
        judge,
        "low byte added",
        additive(LOW, 0),
        low,
        [1, 0, 0, 0, 0, 0],
    );
    let selector = [0xFF, 0xFF, 0x80, 0x00, 0x20, 0xB0];
    let marks = [0, 0, 0, 1, 1, 0];
    one(
        judge,
        "selector replaced",
        additive(SELECTOR, 3),
        selector,
        marks,
    );
    let offset = [0xFF, 0xFF, 0xB4, 0xA2, 0xA0, 0xB0];
    let marks = [0, 0, 1, 1, 0, 0];
    one(judge, "offset added", additive(OFFSET, 2), offset, marks);
    let far = [0xFF, 0x33, 0x93, 0x00, 0x20, 0xB0];
    let marks = [0, 1, 1, 1, 1, 0];
    one(judge, "far pointer added", additive(FAR, 1), far, marks);
}

/// A word, an offset that is added, and their sum; the low byte's sum has no
/// more than the low bytes in it, and no carry goes into a selector.
fn sums(judge: &mut Judge) {
    let words: [(u16, u16, u16); 8] = [
        (0x0000, 0x0000, 0x0000),
        (0x0001, 0xFFFF, 0x0000),
        (0xFFFF, 0xFFFF, 0xFFFE),
        (0x00FF, 0x0001, 0x0100),
        (0x8000, 0x8000, 0x0000),
        (0xFFFE, 0x0003, 0x0001),
        (0x1234, 0x4321, 0x5555),
        (0x7FFF, 0x0001, 0x8000),
    ];
    for (held, offset, sum) in words {
        let ([a, b], [low, high]) = (held.to_le_bytes(), sum.to_le_bytes());
        let add = |kind| module(&[a, b, 0xFF, 0xFF], &[record(kind, ADDITIVE, 0, 2, offset)]);
        let name = format!("{held:04X}h and {offset:04X}h");
        let done = [low, high, 0xFF, 0xFF];
        judge.prepares(
            &format!("{name}, offset"),
            &add(OFFSET),
            &done,
            &[1, 1, 0, 0],
            1,
        );
        let done = [low, b, 0xFF, 0xFF];
        judge.prepares(
            &format!("{name}, low byte"),
            &add(LOW),
            &done,
            &[1, 0, 0, 0],
            1,
        );
        let done = [low, high, 0x01, 0x20];
        judge.prepares(&format!("{name}, far"), &add(FAR), &done, &[1; 4], 1);
        let done = [0x01, 0x20, 0xFF, 0xFF];
        let name = format!("{name}, selector");
        judge.prepares(&name, &add(SELECTOR), &done, &[1, 1, 0, 0], 1);
    }
}

/// The first word of a far pointer is the next site; a low byte has a whole
/// word too; an additive record follows none.
fn chains(judge: &mut Judge) {
    let far = module(&[4, 0, 0x11, 0x22, 0xFF, 0xFF, 0, 0], &[chained(FAR, 0)]);
    let done = [0x34, 0x12, 0x00, 0x20, 0x34, 0x12, 0x00, 0x20];
    judge.prepares("far pointers", &far, &done, &[1; 8], 2);
    let low = module(&[3, 0, 0x77, 0xFF, 0xFF], &[chained(LOW, 0)]);
    let done = [0x34, 0, 0x77, 0x34, 0xFF];
    judge.prepares("low bytes", &low, &done, &[1, 1, 0, 1, 1], 2);
    let single = module(&[2, 0, 0xFF, 0xFF], &[additive(OFFSET, 0)]);
    let done = [0x36, 0x12, 0xFF, 0xFF];
    judge.prepares("additive, one site", &single, &done, &[1, 1, 0, 0], 1);
    // The offset that is written leads elsewhere: the chain is the stored one.
    let stored = [4, 0, 9, 9, 6, 0, 0xFF, 0xFF];
    let chain = module(&stored, &[record(OFFSET, 0, 0, 1, 2)]);
    let done = [2, 0, 9, 9, 2, 0, 2, 0];
    let marks = [1, 1, 0, 0, 1, 1, 1, 1];
    judge.prepares("offset 2", &chain, &done, &marks, 3);
    let back = module(&[0xFF, 0xFF, 0, 0, 2, 0], &[chained(SELECTOR, 4)]);
    judge.prepares("downwards", &back, &[0, 0x20, 0, 0x20, 0, 0x20], &[1; 6], 3);
}

/// From the stored bytes to the allocation, whatever the output held.
fn zeros(judge: &mut Judge) {
    let more = module(&[0xFF, 0xFF], &[chained(OFFSET, 0)]).allocation(9);
    let done = [0x34, 0x12, 0, 0, 0, 0, 0, 0, 0];
    judge.prepares("7 zeros", &more, &done, &[1, 1], 1);
    let plain = Module {
        flags: 0,
        ..module(&[7], &[]).allocation(3)
    };
    judge.prepares("2 zeros, no records", &plain, &[7, 0, 0], &[0], 0);
}

/// The output past the allocation stays, the marks past the stored bytes don't,
/// however long both are and whatever they hold.
fn lent_memory(judge: &mut Judge) {
    let module = module(&[0xFF, 0xFF, 9], &[chained(OFFSET, 0)]).allocation(4);
    for held in [0, 1, 0xFF] {
        for more in [0, 1, 5, 300] {
            let request = Preparing {
                output: Held::These(vec![held; 4 + more]),
                marks: Held::These(vec![held; 3 + more]),
                ..asked(&module)
            };
            let done = prepared(&request, &[0x34, 0x12, 9, 0], &[1, 1, 0], 1);
            let name = format!("{more} more bytes of {held:02X}h");
            judge.expects(&name, &module.image(), &request, &Answer::Accepted(done));
        }
    }
}
