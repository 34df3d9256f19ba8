//! The records of P1 to P9, done in a buffer of the stored bytes.

use super::super::fixups::{additive, chained, record, ADDITIVE, FAR, LOW, OFFSET, SELECTOR};
use super::Judge;

const EIGHT: [u8; 8] = [0x00, 0x00, 0x06, 0x00, 0xAA, 0xBB, 0xFF, 0xFF];

pub fn edges(judge: &mut Judge) {
    eight(judge);
    fewer(judge);
}

fn eight(judge: &mut Judge) {
    let after = [0x00, 0x00, 0x34, 0x12, 0xAA, 0xBB, 0x34, 0x12];
    judge.steps("P1", chained(OFFSET, 2), &EIGHT, &after);
    // The second span passes the buffer, which ends the step there.
    let after = [0x00, 0x00, 0x34, 0x12, 0x00, 0x20, 0xFF, 0xFF];
    judge.steps("P2", chained(FAR, 2), &EIGHT, &after);
    let after = [0x00, 0x00, 0x3A, 0x12, 0xAA, 0xBB, 0xFF, 0xFF];
    judge.steps("P3", additive(OFFSET, 2), &EIGHT, &after);
    let after = [0x00, 0x00, 0x06, 0x00, 0xAA, 0xBB, 0x01, 0x00];
    let p4 = record(OFFSET, ADDITIVE, 6, 1, 2);
    judge.steps("P4", p4, &EIGHT, &after);
    let after = [0x00, 0x00, 0x06, 0x00, 0x20, 0xBB, 0xFF, 0xFF];
    judge.steps("P5", additive(SELECTOR, 3), &EIGHT, &after);
    let after = [0x00, 0x00, 0x06, 0x00, 0x00, 0x20, 0xFF, 0xFF];
    judge.steps("P5 at 4", additive(SELECTOR, 4), &EIGHT, &after);
}

fn fewer(judge: &mut Judge) {
    // From 0 to 2 and back, until as many sites are done as there are bytes.
    let after = [0x34, 0x12, 0x34, 0x12];
    judge.steps("P6", chained(OFFSET, 0), &[2, 0, 0, 0], &after);
    let three = [0xFF, 0xFF, 0x55];
    judge.steps("P7", chained(LOW, 0), &three, &[0x34, 0xFF, 0x55]);
    judge.steps(
        "P8, additive",
        additive(LOW, 2),
        &three,
        &[0xFF, 0xFF, 0x89],
    );
    judge.steps("P8, chained", chained(LOW, 2), &three, &three);
    let p9 = record(FAR, ADDITIVE, 0, 1, 3);
    judge.steps("P9", p9, &[0xFE, 0xFF, 0, 0], &[0x01, 0x00, 0x00, 0x20]);
}
