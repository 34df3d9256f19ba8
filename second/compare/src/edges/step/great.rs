//! Buffers of about 65,536 bytes, and sites about FFFFh in them.

use super::super::fixups::{additive, chained, record, LOW, OFFSET};
use super::Judge;

pub fn edges(judge: &mut Judge) {
    last_sites(judge);
    longer_buffers(judge);
    whole_chain(judge);
    cycles(judge);
}

/// Bytes of FFh with these put at a place.
fn with(length: usize, at: usize, bytes: &[u8]) -> Vec<u8> {
    let mut all = vec![0xFF; length];
    all[at..at + bytes.len()].copy_from_slice(bytes);
    all
}

fn last_sites(judge: &mut Judge) {
    let ends = vec![0xFF; 65_536];
    let after = with(65_536, 65_535, &[0x33]);
    judge.steps(
        "additive low byte at FFFFh",
        additive(LOW, 0xFFFF),
        &ends,
        &after,
    );
    judge.steps(
        "chained low byte at FFFFh",
        chained(LOW, 0xFFFF),
        &ends,
        &ends,
    );
    judge.steps("offset at FFFFh", chained(OFFSET, 0xFFFF), &ends, &ends);
    let after = with(65_536, 65_534, &[0x34, 0x12]);
    judge.steps("offset at FFFEh", chained(OFFSET, 0xFFFE), &ends, &after);
    let short = &ends[..65_535];
    judge.steps(
        "additive low byte past it",
        additive(LOW, 0xFFFF),
        short,
        short,
    );
}

/// FFFFh as a first site is one, where the buffer has it; as the next site it
/// ends the chain.
fn longer_buffers(judge: &mut Judge) {
    let ends = vec![0xFF; 65_540];
    let after = with(65_540, 65_535, &[0x34, 0x12]);
    judge.steps(
        "offset at FFFFh of 65,540",
        chained(OFFSET, 0xFFFF),
        &ends,
        &after,
    );
    let after = with(65_540, 0, &[0x34, 0x12]);
    judge.steps("offset at 0 of 65,540", chained(OFFSET, 0), &ends, &after);
    let after = with(65_540, 65_535, &[0x33, 0x12]);
    judge.steps(
        "additive at FFFFh of 65,540",
        additive(OFFSET, 0xFFFF),
        &ends,
        &after,
    );
}

/// 32,768 offsets.
fn whole_chain(judge: &mut Judge) {
    let nexts = (1..32_768u32).map(|n| (2 * n) as u16).chain([0xFFFF]);
    let before: Vec<u8> = nexts.flat_map(u16::to_le_bytes).collect();
    let after = [0x34, 0x12].repeat(32_768);
    judge.steps("32,768 sites", chained(OFFSET, 0), &before, &after);
}

/// They end, with all their sites written.
fn cycles(judge: &mut Judge) {
    let zeros = vec![0; 65_536];
    let to_0 = record(OFFSET, 0, 0, 1, 0);
    judge.steps("at 0 over and over", to_0, &zeros, &zeros);
    let mut before = [0x00, 0x80].repeat(32_768);
    before[0x8000..0x8002].fill(0);
    let mut after = before.clone();
    after[..2].copy_from_slice(&[0x34, 0x12]);
    after[0x8000..0x8002].copy_from_slice(&[0x34, 0x12]);
    // At 0, at 8000h, at 0 again, where 1234h stands by now, and there.
    after[0x1234..0x1236].copy_from_slice(&[0x34, 0x12]);
    judge.steps("0, 8000h, 0, 1234h", chained(OFFSET, 0), &before, &after);
}
