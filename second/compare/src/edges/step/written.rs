//! Sums and replaced words.

use super::super::fixups::{record, ADDITIVE, FAR, LOW, OFFSET, SELECTOR};
use super::{asked, tables, Judge};
use crate::calls::Stepping;

pub fn edges(judge: &mut Judge) {
    sums(judge);
    twice(judge);
    answers(judge);
}

/// A word, an offset that is added, and their sum.
fn sums(judge: &mut Judge) {
    let words: [(u16, u16, u16); 7] = [
        (0x0000, 0x0000, 0x0000),
        (0x0001, 0xFFFF, 0x0000),
        (0xFFFF, 0xFFFF, 0xFFFE),
        (0x00FF, 0x0001, 0x0100),
        (0x8000, 0x8000, 0x0000),
        (0xFFFE, 0x0003, 0x0001),
        (0x1234, 0x4321, 0x5555),
    ];
    for (held, offset, sum) in words {
        let ([a, b], [low, high]) = (held.to_le_bytes(), sum.to_le_bytes());
        let before = [a, b, 0xFF, 0xFF];
        for (kind, after) in [
            (OFFSET, [low, high, 0xFF, 0xFF]),
            (LOW, [low, b, 0xFF, 0xFF]),
            (FAR, [low, high, 0x01, 0x20]),
            (SELECTOR, [0x01, 0x20, 0xFF, 0xFF]),
        ] {
            let name = format!("{held:04X}h and {offset:04X}h, type {kind}");
            let record = record(kind, ADDITIVE, 0, 2, offset);
            judge.steps(&name, record, &before, &after);
        }
    }
}

/// An additive record adds to what the buffer holds, a step's own sum too.
fn twice(judge: &mut Judge) {
    let add = record(OFFSET, ADDITIVE, 1, 1, 0x1234);
    judge.steps("once", add, &[9, 0, 0, 9], &[9, 0x34, 0x12, 9]);
    judge.steps("twice", add, &[9, 0x34, 0x12, 9], &[9, 0x68, 0x24, 9]);
}

/// Its own answer: the low word is the offset, the high word the selector.
fn answers(judge: &mut Judge) {
    for answer in [0, 1, 0x1_0000, 0x8000_0000, 0x7FFF_FFFF, 0xABCD_1234u32] {
        let [a, b, c, d] = answer.to_le_bytes();
        for (kind, after) in [
            (LOW, [a, 0xFF, 0xFF, 0xFF]),
            (SELECTOR, [c, d, 0xFF, 0xFF]),
            (FAR, [a, b, c, d]),
            (OFFSET, [a, b, 0xFF, 0xFF]),
        ] {
            for flags in [1, 2] {
                let request = Stepping {
                    answer,
                    ..asked(record(kind, flags, 0, 1, 1), &[0xFF; 4])
                };
                let name = format!("answer {answer:X}h, type {kind}, flags {flags}");
                judge.leaves(&name, &tables().image(), &request, &after);
            }
        }
    }
}
