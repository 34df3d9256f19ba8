//! P1 to P12 of document 01.

use super::super::fixups::{additive, chained, module, record, Module, Record};
use super::super::fixups::{ADDITIVE, FAR, LOW, OFFSET, SELECTOR};
use super::Judge;

pub fn edges(judge: &mut Judge) {
    p1_to_p5(judge);
    p6_to_p9(judge);
    p10(judge);
    p11(judge);
    p12(judge);
}

const EIGHT: [u8; 8] = [0x00, 0x00, 0x06, 0x00, 0xAA, 0xBB, 0xFF, 0xFF];

fn p1_to_p5(judge: &mut Judge) {
    let of = |records: &[Record]| module(&EIGHT, records);
    let p1 = of(&[chained(OFFSET, 2)]);
    let bytes = [0x00, 0x00, 0x34, 0x12, 0xAA, 0xBB, 0x34, 0x12];
    judge.prepares("P1", &p1, &bytes, &[0, 0, 1, 1, 0, 0, 1, 1], 2);
    judge.refuses_at("P2", &of(&[chained(FAR, 2)]), 24, 1);
    let p3 = of(&[additive(OFFSET, 2)]);
    let bytes = [0x00, 0x00, 0x3A, 0x12, 0xAA, 0xBB, 0xFF, 0xFF];
    judge.prepares("P3", &p3, &bytes, &[0, 0, 1, 1, 0, 0, 0, 0], 1);
    let p4 = of(&[record(OFFSET, ADDITIVE, 6, 1, 2)]);
    let bytes = [0x00, 0x00, 0x06, 0x00, 0xAA, 0xBB, 0x01, 0x00];
    judge.prepares("P4", &p4, &bytes, &[0, 0, 0, 0, 0, 0, 1, 1], 1);
    let p5 = |second| of(&[additive(OFFSET, 2), additive(SELECTOR, second)]);
    judge.refuses_at("P5", &p5(3), 25, 2);
    let bytes = [0x00, 0x00, 0x3A, 0x12, 0x00, 0x20, 0xFF, 0xFF];
    judge.prepares("P5 at 4", &p5(4), &bytes, &[0, 0, 1, 1, 1, 1, 0, 0], 2);
}

fn p6_to_p9(judge: &mut Judge) {
    let p6 = module(&[2, 0, 0, 0], &[chained(OFFSET, 0)]);
    judge.refuses_at("P6", &p6, 25, 1);
    let three = |record| module(&[0xFF, 0xFF, 0x55], &[record]);
    let p7 = three(chained(LOW, 0));
    judge.prepares("P7", &p7, &[0x34, 0xFF, 0x55], &[1, 1, 0], 1);
    let p8 = three(additive(LOW, 2));
    judge.prepares("P8, additive", &p8, &[0xFF, 0xFF, 0x89], &[0, 0, 1], 1);
    judge.refuses_at("P8, chained", &three(chained(LOW, 2)), 24, 1);
    let p9 = module(&[0xFE, 0xFF, 0, 0], &[record(FAR, ADDITIVE, 0, 1, 3)]);
    judge.prepares("P9", &p9, &[0x01, 0x00, 0x00, 0x20], &[1; 4], 1);
}

/// A far pointer to an ordinal of P10's table.
fn to_ordinal(ordinal: u16) -> Module {
    module(&[0xFF; 4], &[record(FAR, 0, 0, 255, ordinal)])
}

fn p10(judge: &mut Judge) {
    let (first, fourth) = ([0x10, 0x00, 0x00, 0x20], [0x20, 0x00, 0x01, 0x20]);
    judge.prepares("P10, ordinal 1", &to_ordinal(1), &first, &[1; 4], 1);
    judge.prepares("P10, ordinal 4", &to_ordinal(4), &fourth, &[1; 4], 1);
    for ordinal in [0, 2, 3, 5, 6, 0x0100, 0x0101, 0xFFFF] {
        let name = format!("P10, ordinal {ordinal}");
        judge.refuses_at(&name, &to_ordinal(ordinal), 23, 1);
    }
}

fn p11(judge: &mut Judge) {
    for ordinal in 0..6 {
        let mut cut = to_ordinal(ordinal);
        cut.entries.truncate(15);
        judge.refuses_at(&format!("P11, ordinal {ordinal} of 15 bytes"), &cut, 12, 0);
        cut.entries.clear();
        judge.refuses_at(&format!("P11, ordinal {ordinal} of no bytes"), &cut, 23, 1);
    }
}

fn p12(judge: &mut Judge) {
    let p12 = Module {
        flags: 0,
        ..module(&[], &[]).allocation(3)
    };
    judge.prepares("P12", &p12, &[0, 0, 0], &[], 0);
}
