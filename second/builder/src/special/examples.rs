//! The small examples P1 to P12 of document 01.

use super::{internal, one_segment, Special};
use crate::description::{
    Bundle, Description, EntryTable, FixedEntry, Fixup, MovableEntry, Segment, Stored, ADDITIVE,
};

const LOW_BYTE: u8 = 0;
const SELECTOR: u8 = 2;
const FAR: u8 = 3;
const OFFSET: u8 = 5;

/// The bytes of P1 to P5.
const EIGHT: [u8; 8] = [0x00, 0x00, 0x06, 0x00, 0xAA, 0xBB, 0xFF, 0xFF];

pub(super) fn examples() -> Vec<Special> {
    let mut all = fixups();
    all.extend([
        Special::of("P10", || entries(None)),
        Special::of("P11, byte count 15", || entries(Some(15))),
        Special::of("P11, byte count 0", || entries(Some(0))),
        Special::of("P12", p12),
    ]);
    all
}

fn fixups() -> Vec<Special> {
    let at = internal;
    let add = ADDITIVE;
    vec![
        of("P1", &EIGHT, vec![at(OFFSET, 0, 2, 0x1234)]),
        of("P2", &EIGHT, vec![at(FAR, 0, 2, 0x1234)]),
        of("P3", &EIGHT, vec![at(OFFSET, add, 2, 0x1234)]),
        of("P4", &EIGHT, vec![at(OFFSET, add, 6, 2)]),
        of("P5", &EIGHT, p5(3)),
        of("P5, at 4 instead", &EIGHT, p5(4)),
        of("P6", &[2, 0, 0, 0], vec![at(OFFSET, 0, 0, 0x1234)]),
        of("P7", &[0xFF, 0xFF, 0x55], vec![at(LOW_BYTE, 0, 0, 0x1234)]),
        of(
            "P8, additive",
            &[0xFF, 0xFF, 0x55],
            vec![at(LOW_BYTE, add, 2, 0x1234)],
        ),
        of(
            "P8, chained",
            &[0xFF, 0xFF, 0x55],
            vec![at(LOW_BYTE, 0, 2, 0x1234)],
        ),
        of("P9", &[0xFE, 0xFF, 0, 0], vec![at(FAR, add, 0, 3)]),
    ]
}

fn of(name: &str, stored: &[u8], fixups: Vec<Fixup>) -> Special {
    let stored = stored.to_vec();
    Special::of(name, move || one_segment(stored.clone(), fixups.clone()))
}

fn p5(second: u16) -> Vec<Fixup> {
    vec![
        internal(OFFSET, ADDITIVE, 2, 0x1234),
        internal(SELECTOR, ADDITIVE, second, 0x1234),
    ]
}

/// P10's table in a module of two segments.
fn entries(size: Option<u16>) -> Description {
    let mut description = Description::empty();
    description.segments = vec![without_bytes(16), without_bytes(32)];
    let fixed = FixedEntry {
        flag: 1,
        offset: 0x10,
    };
    let movable = MovableEntry {
        flag: 3,
        segment: 2,
        offset: 0x20,
    };
    description.entries = EntryTable {
        bundles: vec![
            Bundle::Fixed {
                segment: 1,
                entries: vec![fixed],
            },
            Bundle::Null { count: 2 },
            Bundle::Movable {
                entries: vec![movable],
            },
        ],
        end: true,
        trailing: Vec::new(),
        size,
    };
    description.in_usual_order()
}

fn p12() -> Description {
    let mut description = Description::empty();
    description.segments.push(without_bytes(3));
    description.in_usual_order()
}

fn without_bytes(allocation: u16) -> Segment {
    Segment {
        stored: Stored::None { length: 0 },
        flags: 0,
        allocation,
        fixups: Vec::new(),
    }
}
