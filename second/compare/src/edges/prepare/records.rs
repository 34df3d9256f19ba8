//! The number of the record that is refused.

use super::super::fixups::{additive, chained, module, record, Record};
use super::super::fixups::{LOW, OFFSET};
use super::Judge;

pub fn edges(judge: &mut Judge) {
    for bad_at in [1, 2, 3, 255, 256, 257, 1_000] {
        for behind in [0, 1, 5] {
            numbers(judge, bad_at, behind);
        }
    }
    numbers(judge, 65_535, 0);
    numbers(judge, 65_534, 1);
    numbers(judge, 32_768, 32_767);
}

/// An OS fixup, which is always good.
fn good() -> Record {
    record(OFFSET, 3, 0, 0, 0)
}

/// Each refusal at this record, with so many behind it that are as bad.
fn numbers(judge: &mut Judge, bad_at: usize, behind: usize) {
    let bad = [
        (22, record(1, 0, 0, 1, 0)),
        (23, record(OFFSET, 0, 0, 0, 0)),
        (24, chained(OFFSET, 9)),
        // A cycle.
        (25, chained(OFFSET, 0)),
    ];
    for (refusal, bad) in bad {
        let mut records = vec![good(); bad_at - 1];
        records.extend(vec![bad; 1 + behind]);
        let name = format!("record {bad_at} of {}", records.len());
        let of = module(&[0, 0, 0xFF, 0xFF], &records);
        judge.refuses_at(&name, &of, refusal, bad_at as u32);
    }
    if bad_at > 1 {
        // It meets the first record's span.
        let mut records = vec![good(); bad_at + behind];
        records[0] = additive(LOW, 3);
        records[bad_at - 1] = additive(LOW, 3);
        let name = format!("record {bad_at} of {} meets the first", records.len());
        let of = module(&[0, 0, 0xFF, 0xFF], &records);
        judge.refuses_at(&name, &of, 25, bad_at as u32);
    }
}
