//! Which selectors and import answers are read: an answer has its record's
//! number.

use super::super::fixups::{module, record, Module, FAR, LOW, OFFSET, SELECTOR};
use super::{asked, prepared, Judge};
use crate::answer::Answer;
use crate::calls::{Held, Preparing};

pub fn edges(judge: &mut Judge) {
    by_record(judge);
    halves(judge);
    others(judge);
    selectors(judge);
}

/// Internal and OS records have answers too, which aren't read.
fn mixed() -> Module {
    let records = [
        record(FAR, 0, 0, 2, 0x0102),
        record(FAR, 3, 0, 0, 0),
        record(FAR, 1, 4, 1, 9),
        record(FAR, 0, 8, 255, 1),
        record(FAR, 2, 12, 2, 1),
    ];
    module(&[0xFF; 16], &records)
}

/// Answers 3 and 5.
const MIXED: [u8; 16] = [
    0x02, 0x01, 0x01, 0x20, 0x03, 0x05, 0x03, 0x70, 0x10, 0x00, 0x00, 0x20, 0x05, 0x05, 0x05, 0x70,
];

fn by_record(judge: &mut Judge) {
    judge.prepares("answers 3 and 5", &mixed(), &MIXED, &[1; 16], 4);
    let last = vec![record(OFFSET, 3, 0, 0, 0); 299];
    let records = [last, vec![record(FAR, 1, 0, 1, 0)]].concat();
    let done = [0x2C, 0x06, 0x2C, 0x71];
    judge.prepares(
        "answer 300",
        &module(&[0xFF; 4], &records),
        &done,
        &[1; 4],
        1,
    );
}

/// The low word is the offset, the high word the selector.
fn halves(judge: &mut Judge) {
    for answer in [
        0,
        1,
        0x1_0000,
        0x8000_0000,
        0x7FFF_FFFF,
        0xFFFF_FFFE,
        0xABCD_1234u32,
    ] {
        let [a, b, c, d] = answer.to_le_bytes();
        for (kind, bytes) in [
            (LOW, [a, 0xFF, 0xFF, 0xFF]),
            (SELECTOR, [c, d, 0xFF, 0xFF]),
            (FAR, [a, b, c, d]),
            (OFFSET, [a, b, 0xFF, 0xFF]),
        ] {
            let module = module(&[0xFF; 4], &[record(kind, 1, 0, 1, 0)]);
            let request = Preparing {
                answers: Held::These(vec![answer]),
                ..asked(&module)
            };
            let marks: &[u8] = match kind {
                FAR => &[1; 4],
                _ => &[1, 1, 0, 0],
            };
            let done = Answer::Accepted(prepared(&request, &bytes, marks, 1));
            let name = format!("answer {answer:X}h, type {kind}");
            judge.expects(&name, &module.image(), &request, &done);
        }
    }
}

/// Answers at other records, and those past the last, don't matter.
fn others(judge: &mut Judge) {
    let module = mixed();
    for other in [0, 0x0001_0001, 0xFFFF_FFFF] {
        let request = Preparing {
            answers: Held::These(vec![
                other,
                other,
                0x7003_0503,
                other,
                0x7005_0505,
                other,
                other,
            ]),
            ..asked(&module)
        };
        let done = Answer::Accepted(prepared(&request, &MIXED, &[1; 16], 4));
        let name = format!("other answers {other:X}h");
        judge.expects(&name, &module.image(), &request, &done);
    }
}

/// The targeted segment's alone, by its number from 1.
fn selectors(judge: &mut Judge) {
    for other in [0, 1, 0xFFFF] {
        for (segment, list) in [(1, [0xABCD, other, other]), (2, [other, 0xABCD, other])] {
            let module = module(&[0xFF; 4], &[record(FAR, 0, 0, segment, 0x0102)]);
            let request = Preparing {
                selectors: Held::These(list.to_vec()),
                ..asked(&module)
            };
            let bytes = [0x02, 0x01, 0xCD, 0xAB];
            let done = Answer::Accepted(prepared(&request, &bytes, &[1; 4], 1));
            let name = format!("selector of segment {segment}, others {other:04X}h");
            judge.expects(&name, &module.image(), &request, &done);
        }
    }
}
