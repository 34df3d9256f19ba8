//! Refusal 25: spans that meet.

use super::super::fixups::{additive, chained, module, record, Record, TYPES};
use super::super::fixups::{FAR, LOW, OFFSET, SELECTOR};
use super::Judge;

pub fn edges(judge: &mut Judge) {
    one_chain(judge);
    two_records(judge);
    unwritten_byte(judge);
    later_sites(judge);
    touching(judge);
}

fn one_chain(judge: &mut Judge) {
    let of = |stored: &[u8], kind| module(stored, &[chained(kind, 0)]);
    let meets = of(&[1, 0, 0xFF, 0xFF], OFFSET);
    judge.refuses_at("01 00 FF FF without a cycle", &meets, 25, 1);
    let apart = of(&[2, 0, 0xFF, 0xFF], OFFSET);
    let done = [0x34, 0x12, 0x34, 0x12];
    judge.prepares("02 00 FF FF", &apart, &done, &[1; 4], 2);
    for (kind, span, _) in TYPES {
        for next in 0..span as u8 {
            let stored = [next, 0, 0, 0, 0xFF, 0xFF, 0xFF, 0xFF];
            let name = format!("type {kind}, from 0 to {next}");
            judge.refuses_at(&name, &of(&stored, kind), 25, 1);
        }
        for first in 1..span as u16 {
            // Backwards: the second site is 0.
            let stored = [0; 8];
            let chain = module(&stored, &[chained(kind, first)]);
            let name = format!("type {kind}, from {first} to 0");
            judge.refuses_at(&name, &chain, 25, 1);
        }
    }
    let cycle = of(&[4, 0, 0, 0, 2, 0], OFFSET);
    judge.refuses_at("a cycle of three", &cycle, 25, 1);
}

/// A far pointer at 4 to 7, and another record before it or behind it.
fn two_records(judge: &mut Judge) {
    let far = additive(FAR, 4);
    for (kind, _, span) in TYPES {
        for site in 0..=10u16 {
            let other = additive(kind, site);
            let apart = usize::from(site) + span <= 4 || site >= 8;
            for (records, bad) in [([far, other], 2), ([other, far], 2)] {
                let both = module(&[0xFF; 14], &records);
                if !apart {
                    let name = format!("type {kind} at {site} and 4 to 7: {records:02X?}");
                    judge.refuses_at(&name, &both, 25, bad);
                }
            }
        }
    }
    for again in [chained(LOW, 3), additive(LOW, 3), chained(FAR, 3)] {
        let twice = module(&[0xFF; 8], &[again, again]);
        judge.refuses_at(&format!("{again:02X?} twice"), &twice, 25, 2);
    }
}

/// The second byte of a chained low byte is in its span.
fn unwritten_byte(judge: &mut Judge) {
    let of = |records: &[Record]| module(&[0xFF; 4], records);
    let low = chained(LOW, 0);
    judge.refuses_at("a low byte in it", &of(&[low, additive(LOW, 1)]), 25, 2);
    judge.refuses_at("it on a low byte", &of(&[additive(LOW, 1), low]), 25, 2);
    let behind = of(&[low, additive(LOW, 2)]);
    let done = [0x34, 0xFF, 0x33, 0xFF];
    judge.prepares("a low byte behind it", &behind, &done, &[1, 1, 1, 0], 2);
    let single = of(&[additive(LOW, 0), additive(LOW, 1)]);
    let done = [0x33, 0x33, 0xFF, 0xFF];
    judge.prepares(
        "additive ones side by side",
        &single,
        &done,
        &[1, 1, 0, 0],
        2,
    );
}

/// The second record meets the first at its second site; OS fixups have none.
fn later_sites(judge: &mut Judge) {
    let stored = [4, 0, 9, 9, 0xFF, 0xFF, 9, 9];
    let chain = chained(OFFSET, 0);
    for site in [3, 4, 5] {
        let records = [additive(OFFSET, site), chain];
        let name = format!("a second site on {site}");
        judge.refuses_at(&name, &module(&stored, &records), 25, 2);
        let records = [chain, additive(OFFSET, site)];
        let name = format!("{site} on a second site");
        judge.refuses_at(&name, &module(&stored, &records), 25, 2);
    }
    let os = record(FAR, 3, 0, 0, 0);
    let done = [0x34, 0x12, 9, 9, 0x34, 0x12, 9, 9];
    let marks = [1, 1, 0, 0, 1, 1, 0, 0];
    let around = module(&stored, &[os, chain, os]);
    judge.prepares("OS fixups on all sites", &around, &done, &marks, 2);
}

/// Spans side by side over all stored bytes, in any order.
fn touching(judge: &mut Judge) {
    let records = [
        additive(LOW, 0),
        chained(LOW, 1),
        chained(SELECTOR, 3),
        additive(FAR, 5),
        additive(OFFSET, 9),
    ];
    let done = [
        0x33, 0x34, 0xFF, 0x00, 0x20, 0x33, 0x12, 0x00, 0x20, 0x33, 0x12,
    ];
    for turn in 0..5 {
        let mut turned = records;
        turned.rotate_left(turn);
        let whole = module(&[0xFF; 11], &turned);
        let name = format!("side by side, from record {turn} on");
        judge.prepares(&name, &whole, &done, &[1; 11], 5);
        turned.reverse();
        let whole = module(&[0xFF; 11], &turned);
        judge.prepares(&format!("{name}, backwards"), &whole, &done, &[1; 11], 5);
    }
}
