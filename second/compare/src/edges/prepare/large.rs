//! The greatest counts of records, bytes and sites.

use super::super::fixups::{additive, chained, module, record, Module};
use super::super::fixups::{ADDITIVE, FAR, LOW, OFFSET, SELECTOR};
use super::Judge;

pub fn edges(judge: &mut Judge) {
    few_records(judge);
    most_records(judge);
    most_sites(judge);
    whole_segments(judge);
    long_chains(judge);
    cut_chains(judge);
}

fn few_records(judge: &mut Judge) {
    let none = module(&[1, 2], &[]);
    judge.prepares("0 records", &none, &[1, 2], &[0, 0], 0);
    let one = module(&[1, 2], &[additive(OFFSET, 0)]);
    judge.prepares("1 record", &one, &[0x35, 0x14], &[1, 1], 1);
}

/// Record n is an additive low byte at n, where n's low byte stands; it adds n.
fn low_bytes() -> Module {
    let stored: Vec<u8> = (0..65_536u32).map(|n| n as u8).collect();
    let records: Vec<_> = (1..=0xFFFF)
        .map(|n| record(LOW, ADDITIVE, n, 1, n))
        .collect();
    module(&stored, &records)
}

fn most_records(judge: &mut Judge) {
    let mut all = low_bytes();
    let doubled: Vec<u8> = (0..65_536u32).map(|n| (2 * n) as u8).collect();
    let mut marks = vec![1; 65_536];
    marks[0] = 0;
    judge.prepares("65,535 records", &all, &doubled, &marks, 65_535);
    all.records[65_534] = additive(LOW, 0xFFFE);
    judge.refuses_at("65,535 records, the last meets", &all, 25, 65_535);
    all.records[65_534] = additive(OFFSET, 0xFFFF);
    judge.refuses_at("65,535 records, the last outside", &all, 24, 65_535);
    all.records[65_534] = record(LOW, ADDITIVE, 0xFFFF, 3, 0);
    judge.refuses_at("65,535 records, the last unresolved", &all, 23, 65_535);
    all.records[65_534] = record(1, 0, 0, 1, 0);
    judge.refuses_at("65,535 records, the last unknown", &all, 22, 65_535);
    let os = module(&[5], &vec![record(OFFSET, 3, 0xFFFF, 0, 0); 65_535]);
    judge.prepares("65,535 OS fixups on 1 byte", &os, &[5], &[0], 0);
}

/// 65,535 sites that leave no byte over: the first record is a chain.
fn most_sites(judge: &mut Judge) {
    let mut all = low_bytes();
    all.records[0] = chained(LOW, 0);
    all.stored[0] = 0xFF;
    all.stored[1] = 0xFF;
    let mut doubled: Vec<u8> = (0..65_536u32).map(|n| (2 * n) as u8).collect();
    doubled[0] = 0x34;
    doubled[1] = 0xFF;
    judge.prepares("65,535 sites", &all, &doubled, &vec![1; 65_536], 65_535);
}

fn whole_segments(judge: &mut Judge) {
    let bytes: Vec<u8> = (0..65_536u32).map(|n| (n / 7) as u8).collect();
    let plain = module(&bytes, &[]);
    judge.prepares("65,536 bytes", &plain, &bytes, &vec![0; 65_536], 0);
    let under = plain.clone().allocation(0xFFFF);
    judge.refuses_at("65,536 bytes, allocation 65,535", &under, 11, 0);
    let almost = module(&bytes[..65_535], &[]).allocation(0);
    let done = [&bytes[..65_535], &[0]].concat();
    judge.prepares("65,535 bytes in 65,536", &almost, &done, &[0; 65_535], 0);
    let exact = module(&bytes[..65_535], &[]);
    judge.prepares("65,535 bytes", &exact, &done[..65_535], &[0; 65_535], 0);
    let mut done = vec![0; 65_536];
    done[0] = 0x39;
    let single = module(&[5], &[additive(LOW, 0)]).allocation(0);
    judge.prepares("1 byte in 65,536", &single, &done, &[1], 1);
}

/// A chain over all bytes of a segment, in this order of its sites.
fn chain(kind: u8, sites: &[usize]) -> Module {
    let mut stored = vec![0x5A; 65_536];
    for (index, site) in sites.iter().enumerate() {
        let next = sites.get(index + 1).map_or(0xFFFF, |next| *next as u16);
        stored[*site..site + 2].copy_from_slice(&next.to_le_bytes());
    }
    module(&stored, &[chained(kind, sites[0] as u16)])
}

fn long_chains(judge: &mut Judge) {
    let up: Vec<usize> = (0..65_536).step_by(2).collect();
    let down: Vec<usize> = up.iter().rev().copied().collect();
    let marks = vec![1; 65_536];
    for (name, sites) in [("upwards", &up), ("downwards", &down)] {
        let offsets = chain(OFFSET, sites);
        let done = [0x34, 0x12].repeat(32_768);
        let all = format!("32,768 offsets, {name}");
        judge.prepares(&all, &offsets, &done, &marks, 32_768);
        let selectors = chain(SELECTOR, sites);
        let done = [0x00, 0x20].repeat(32_768);
        let all = format!("32,768 selectors, {name}");
        judge.prepares(&all, &selectors, &done, &marks, 32_768);
        let lows = chain(LOW, sites);
        let mut done = lows.stored.clone();
        done.chunks_mut(2).for_each(|pair| pair[0] = 0x34);
        let all = format!("32,768 low bytes, {name}");
        judge.prepares(&all, &lows, &done, &marks, 32_768);
    }
    let four: Vec<usize> = (0..65_536).step_by(4).collect();
    let done = [0x34, 0x12, 0x00, 0x20].repeat(16_384);
    judge.prepares(
        "16,384 far pointers",
        &chain(FAR, &four),
        &done,
        &marks,
        16_384,
    );
}

/// The last of 32,768 sites leads back, or to a byte that is no span's.
fn cut_chains(judge: &mut Judge) {
    let up: Vec<usize> = (0..65_536).step_by(2).collect();
    for next in [0u16, 1, 2, 0x8000, 0xFFFD, 0xFFFE] {
        let mut module = chain(OFFSET, &up);
        module.stored[65_534..].copy_from_slice(&next.to_le_bytes());
        let name = format!("32,768 sites and then {next:X}h");
        judge.refuses_at(&name, &module, 25, 1);
    }
}
