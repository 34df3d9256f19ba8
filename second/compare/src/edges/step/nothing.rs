//! What changes no byte, whatever buffer it is done in.

use super::super::fixups::{record, OFFSET};
use super::{asked, tables, Judge};
use crate::calls::{Held, Stepping};

pub fn edges(judge: &mut Judge) {
    for length in 0..10 {
        let buffer = Held::filled(length, 3);
        for kind in 0..16 {
            let os = record(kind, 3, 0, 1, 9);
            judge.steps(&format!("OS fixup, {length} bytes"), os, &buffer, &buffer);
            let os = record(kind, 7, 0, 0xFFFF, 9);
            judge.steps(
                &format!("additive OS fixup, {length}"),
                os,
                &buffer,
                &buffer,
            );
        }
        for kind in [1, 4, 6, 7, 8, 9, 15] {
            for flags in [0, 1, 2, 4, 5, 6] {
                let unknown = record(kind, flags, 0, 1, 1);
                let name = format!("type {kind}, flags {flags}, {length} bytes");
                judge.steps(&name, unknown, &buffer, &buffer);
            }
        }
    }
    nothing_at(judge);
}

/// A buffer of no bytes may stand anywhere.
fn nothing_at(judge: &mut Judge) {
    for address in [0, 1, 3, usize::MAX] {
        for flags in [0, 4, 1, 5] {
            let request = Stepping {
                buffer: Held::NothingAt(address),
                ..asked(record(OFFSET, flags, 0, 1, 9), &[])
            };
            let name = format!("no buffer at address {address:X}h, flags {flags}");
            judge.leaves(&name, &tables().image(), &request, &[]);
        }
    }
}
