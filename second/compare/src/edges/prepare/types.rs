//! Refusal 22: the type's low four bits; and the flag's low three.

use super::super::fixups::{module, record, OFFSET};
use super::Judge;

pub fn edges(judge: &mut Judge) {
    every_type(judge);
    every_flag(judge);
    os_fixups(judge);
}

/// Chained at 0 of four bytes.
fn every_type(judge: &mut Judge) {
    for kind in 0..=255 {
        let name = format!("type {kind:02X}h");
        let module = module(&[0xFF; 4], &[record(kind, 0, 0, 1, 0x1234)]);
        let (bytes, marks) = match kind % 16 {
            0 => ([0x34, 0xFF, 0xFF, 0xFF], [1, 1, 0, 0]),
            2 => ([0x00, 0x20, 0xFF, 0xFF], [1, 1, 0, 0]),
            3 => ([0x34, 0x12, 0x00, 0x20], [1, 1, 1, 1]),
            5 => ([0x34, 0x12, 0xFF, 0xFF], [1, 1, 0, 0]),
            _ => {
                judge.refuses_at(&name, &module, 22, 1);
                continue;
            }
        };
        judge.prepares(&name, &module, &bytes, &marks, 1);
    }
}

/// An offset at 0. By each of its three meanings the target resolves.
fn every_flag(judge: &mut Judge) {
    for flags in 0..=255 {
        let name = format!("flags {flags:02X}h");
        let module = module(&[0xFF; 4], &[record(OFFSET, flags, 0, 1, 1)]);
        let bytes = match flags % 8 {
            0 => [0x01, 0x00, 0xFF, 0xFF],
            4 => [0x00, 0x00, 0xFF, 0xFF],
            1 | 2 => [0x01, 0x05, 0xFF, 0xFF],
            5 | 6 => [0x00, 0x05, 0xFF, 0xFF],
            _ => {
                judge.prepares(&name, &module, &[0xFF; 4], &[0; 4], 0);
                continue;
            }
        };
        judge.prepares(&name, &module, &bytes, &[1, 1, 0, 0], 1);
    }
}

/// Neither their sites nor their target words are looked at; their types are.
fn os_fixups(judge: &mut Judge) {
    for kind in 0..=255 {
        for flags in [3, 7, 0xFF] {
            let os = record(kind, flags, 0xFFFF, 0xFFFF, 0xFFFF);
            let module = module(&[1, 2], &[os, os]);
            let name = format!("OS fixup, type {kind:02X}h, flags {flags:02X}h");
            match kind % 16 {
                0 | 2 | 3 | 5 => judge.prepares(&name, &module, &[1, 2], &[0, 0], 0),
                _ => judge.refuses_at(&name, &module, 22, 1),
            }
        }
    }
}
