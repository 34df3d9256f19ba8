//! The type's low four bits, and the flag's low three.

use super::super::fixups::{record, OFFSET};
use super::Judge;

pub fn edges(judge: &mut Judge) {
    for byte in 0..=255 {
        every_type(judge, byte);
        every_flag(judge, byte);
    }
}

/// Chained at 0 of four bytes.
fn every_type(judge: &mut Judge, kind: u8) {
    let after = match kind % 16 {
        0 => [0x34, 0xFF, 0xFF, 0xFF],
        2 => [0x00, 0x20, 0xFF, 0xFF],
        3 => [0x34, 0x12, 0x00, 0x20],
        5 => [0x34, 0x12, 0xFF, 0xFF],
        _ => [0xFF; 4],
    };
    let record = record(kind, 0, 0, 1, 0x1234);
    judge.steps(&format!("type {kind:02X}h"), record, &[0xFF; 4], &after);
}

/// An offset at 0. By each of its three meanings the target resolves.
fn every_flag(judge: &mut Judge, flags: u8) {
    let after = match flags % 8 {
        0 => [0x01, 0x00, 0xFF, 0xFF],
        4 => [0x00, 0x00, 0xFF, 0xFF],
        1 | 2 => [0x01, 0x05, 0xFF, 0xFF],
        5 | 6 => [0x00, 0x05, 0xFF, 0xFF],
        _ => [0xFF; 4],
    };
    let record = record(OFFSET, flags, 0, 1, 1);
    judge.steps(&format!("flags {flags:02X}h"), record, &[0xFF; 4], &after);
}
