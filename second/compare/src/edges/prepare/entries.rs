//! Refusals 12, 13 and 14: the entry table, which is walked even where no
//! record names an ordinal.

use super::super::fixups::{chained, module, record, Module, Record, OFFSET};
use super::Judge;

pub fn edges(judge: &mut Judge) {
    for (name, entries, refusal) in unsound() {
        judge_one(judge, &name, entries, refusal);
    }
    for (name, entries) in sound() {
        judge_one(judge, name, entries, 0);
    }
}

/// With records that name no ordinal, and without any; where the table is
/// unsound, with an ordinal too.
fn judge_one(judge: &mut Judge, name: &str, entries: Vec<u8>, refusal: u32) {
    let of = |records: &[Record]| Module {
        entries: entries.clone(),
        ..module(&[0xFF; 4], records)
    };
    let (internal, none) = (of(&[chained(OFFSET, 0)]), of(&[]));
    if refusal == 0 {
        let done = [0x34, 0x12, 0xFF, 0xFF];
        judge.prepares(name, &internal, &done, &[1, 1, 0, 0], 1);
        judge.prepares(
            &format!("{name}, no records"),
            &none,
            &[0xFF; 4],
            &[0; 4],
            0,
        );
        return;
    }
    judge.refuses_at(name, &internal, refusal, 0);
    judge.refuses_at(&format!("{name}, no records"), &none, refusal, 0);
    let ordinal = of(&[record(OFFSET, 0, 0, 255, 1)]);
    judge.refuses_at(&format!("{name}, an ordinal"), &ordinal, refusal, 0);
}

/// So many null ordinals and no end byte.
fn nulls(count: usize) -> Vec<u8> {
    let mut table = [255, 0].repeat(count / 255);
    match count % 255 {
        0 => {}
        rest => table.extend([rest as u8, 0]),
    }
    table
}

fn unsound() -> Vec<(String, Vec<u8>, u32)> {
    let mut all = Vec::new();
    let mut add = |name: &str, bytes: &[u8], refusal| {
        all.push((name.to_string(), bytes.to_vec(), refusal));
    };
    add("no segment byte", &[1], 12);
    add("no entry bytes", &[1, 1], 12);
    add("entry bytes one short", &[1, 1, 0, 0], 12);
    add("no end byte", &[1, 1, 0, 0, 0], 12);
    add("no end byte behind nulls", &[9, 0], 12);
    add(
        "movable bytes one short",
        &[1, 255, 0, 0xCD, 0x3F, 1, 0],
        12,
    );
    add("segment 3 of 2", &[1, 3, 0, 0, 0, 0], 13);
    add("segment 254 of 2", &[1, 254, 0, 0, 0, 0], 13);
    add("movable 0", &[1, 255, 0, 0xCD, 0x3F, 0, 0, 0, 0], 13);
    add("movable 3 of 2", &[1, 255, 0, 0xCD, 0x3F, 3, 0, 0, 0], 13);
    add("CDh 3Eh", &[1, 255, 0, 0xCD, 0x3E, 1, 0, 0, 0], 13);
    add("CCh 3Fh", &[1, 255, 0, 0xCC, 0x3F, 1, 0, 0, 0], 13);
    add("13 before 12", &[1, 3, 0, 0, 0], 13);
    add("65,536 nulls", &[&nulls(65_536)[..], &[0]].concat(), 14);
    let past = [&nulls(65_535)[..], &[1, 1]].concat();
    add("14 before missing bytes", &past, 14);
    let past = [&nulls(65_535)[..], &[1]].concat();
    add("12 before 14", &past, 12);
    all
}

fn sound() -> Vec<(&'static str, Vec<u8>)> {
    vec![
        ("size 0", vec![]),
        ("an end byte alone", vec![0]),
        ("bytes behind the end", vec![0, 1, 3]),
        ("segment 2 of 2", vec![1, 2, 0, 0, 0, 0]),
        ("movable 2 of 2", vec![1, 255, 0, 0xCD, 0x3F, 2, 0, 0, 0]),
        ("65,535 nulls", [&nulls(65_535)[..], &[0]].concat()),
    ]
}
