//! Segments and fixups: sectors, lengths, record lists and sites.

use super::targets::with_target;
use super::{case, internal, one_segment, shorter, with_bytes, Special};
use crate::description::{Description, Put, Stored, Target, ADDITIVE, HAS_RECORDS, ITERATED};
use crate::generate::Case;
use crate::layout::FieldKind;

pub(super) fn segments() -> Vec<Special> {
    let mut all = sectors();
    all.extend(ends());
    all.extend(flags_and_allocation());
    all.extend(sites());
    all.push(Special::of("every kind of fixup", every_kind));
    all
}

fn sectors() -> Vec<Special> {
    let mut all = Vec::new();
    for (shift, stored) in [(0u16, 1usize), (0, 2), (8, 256)] {
        let name = format!("sector FFFFh, shift {shift}, {stored} bytes that end the image");
        all.push(Special::of(name, move || last_sector(shift, stored)));
    }
    for shift in [0u16, 1, 9, 14, 15] {
        let name = format!("sector FFFFh, shift {shift}, past the image");
        all.push(Special::new(name, move || {
            let mut description = plain(vec![7; 16]);
            description.shift = shift;
            with_field(case(description), FieldKind::SegmentSector(0), 0xFFFF)
        }));
    }
    all
}

/// Without records, at the greatest sector.
fn last_sector(shift: u16, stored: usize) -> Description {
    let mut description = plain(vec![7; stored]);
    description.shift = shift;
    let at = Put::At {
        place: 0xFFFF << shift,
    };
    if let Some(last) = description.order.last_mut() {
        last.1 = at;
    }
    description
}

/// One segment without records.
fn plain(stored: Vec<u8>) -> Description {
    let mut description = one_segment(stored, Vec::new());
    description.segments[0].flags = 0;
    description
}

fn with_field(case: Case, what: FieldKind, value: u32) -> Case {
    let field = case.image.layout.field_of(what);
    with_bytes(case, |bytes| {
        if let Some(field) = field {
            field.write(bytes, value);
        }
    })
}

/// Stored bytes and record lists about the image's end.
fn ends() -> Vec<Special> {
    let mut all = Vec::new();
    for by in [0usize, 1, 16] {
        let name = format!("stored bytes end the image, less {by}");
        all.push(Special::new(name, move || {
            shorter(case(plain(vec![7; 16])), by)
        }));
    }
    for by in [0usize, 1, 7, 8, 9, 16, 17, 18, 19] {
        let name = format!("two records end the image, less {by}");
        all.push(Special::new(name, move || {
            let two = vec![internal(5, ADDITIVE, 0, 1), internal(5, ADDITIVE, 2, 1)];
            shorter(case(one_segment(vec![7; 16], two)), by)
        }));
    }
    for by in [0usize, 1, 2] {
        let name = format!("a record count of 0 ends the image, less {by}");
        all.push(Special::new(name, move || {
            shorter(case(one_segment(vec![7; 16], Vec::new())), by)
        }));
    }
    all
}

fn flags_and_allocation() -> Vec<Special> {
    let mut all = Vec::new();
    for flags in [0, HAS_RECORDS, ITERATED, ITERATED | HAS_RECORDS] {
        let name = format!("sector 0 with flags {flags:04X}h");
        all.push(Special::of(name, move || {
            let mut description = plain(Vec::new());
            description.segments[0].stored = Stored::None { length: 9 };
            description.segments[0].flags = flags;
            description.segments[0].allocation = 3;
            description
        }));
    }
    for (length, allocation) in [(16, 15u16), (16, 16), (16, 17), (16, 0), (1, 1), (2, 1)] {
        for flags in [0, ITERATED, HAS_RECORDS] {
            let name = format!("{length} bytes, allocation {allocation}, flags {flags:04X}h");
            all.push(Special::of(name, move || {
                let mut description = plain(vec![7; length]);
                description.segments[0].allocation = allocation;
                description.segments[0].flags = flags;
                description
            }));
        }
    }
    for allocation in [0u16, 1, 65_535] {
        let name = format!("65,536 bytes, allocation word {allocation}");
        all.push(Special::of(name, move || {
            let mut description = plain(vec![7; 65_536]);
            description.segments[0].allocation = allocation;
            description
        }));
    }
    all
}

fn sites() -> Vec<Special> {
    let mut all = Vec::new();
    for kind in 0..16u8 {
        for flags in [0u8, ADDITIVE, 3, 7] {
            let name = format!("type {kind}, flags {flags}, at the stored bytes' start");
            all.push(one_fixup(name, vec![0xFF; 8], kind, flags, 0));
        }
    }
    for kind in [0u8, 2, 3, 5] {
        for site in [4u16, 5, 6, 7, 8, 0x8000, 0xFFFE, 0xFFFF] {
            for flags in [0, ADDITIVE] {
                let name = format!("type {kind}, flags {flags}, at {site} of 8 bytes");
                all.push(one_fixup(name, vec![0xFF; 8], kind, flags, site));
            }
        }
        for site in [0xFFFBu16, 0xFFFC, 0xFFFD, 0xFFFE, 0xFFFF] {
            for flags in [0, ADDITIVE] {
                let name = format!("type {kind}, flags {flags}, at {site:X}h of 65,536 bytes");
                all.push(one_fixup(name, vec![0xFF; 65_536], kind, flags, site));
            }
        }
    }
    let overlap = vec![1, 0, 0xFF, 0xFF];
    all.push(one_fixup("a chain that meets itself", overlap, 5, 0, 0));
    let high = vec![0xFF; 8];
    all.push(one_fixup("type F5h, flags F8h", high, 0xF5, 0xF8, 2));
    all.push(Special::of(
        "a site in the zeros past the stored bytes",
        || {
            let mut description = one_segment(vec![0xFF; 8], vec![internal(5, ADDITIVE, 8, 1)]);
            description.segments[0].allocation = 16;
            description
        },
    ));
    all
}

fn one_fixup(name: impl Into<String>, stored: Vec<u8>, kind: u8, flags: u8, site: u16) -> Special {
    let fixup = internal(kind, flags, site, 0x1234);
    Special::of(name, move || one_segment(stored.clone(), vec![fixup]))
}

/// All four types with all four relations, chained and additive, four bytes
/// apart. Every chain has one site.
fn every_kind() -> Description {
    let mut stored = vec![0xFF; 4 * 32];
    let mut fixups = Vec::new();
    for (number, kind) in [0u8, 2, 3, 5].into_iter().cycle().take(32).enumerate() {
        let flags = (number / 4) as u8;
        let site = 4 * number as u16;
        if flags & ADDITIVE != 0 {
            stored[4 * number..4 * number + 4].copy_from_slice(&[0xF0, 0xFF, 0x21, 0x43]);
        }
        let mut fixup = internal(kind, flags, site, 0x1234);
        fixup.target = match flags & 3 {
            1 => Target::ImportOrdinal {
                module: 2,
                ordinal: 5,
            },
            2 => Target::ImportName {
                module: 1,
                string: 8,
            },
            _ => fixup.target,
        };
        fixups.push(fixup);
    }
    let mut description = with_target(0, fixups[0].target);
    description.segments[0] = super::segment(stored, fixups);
    description
}
