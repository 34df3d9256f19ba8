//! Random segments with their stored bytes (document 01, "Segment record").

use super::fixups::{additive_at, fixups, os_fixup, Targets};
use super::shape::{Longest, Shape};
use crate::description::{Fixup, Segment, Stored, HAS_RECORDS, ITERATED};
use crate::random::Random;

pub(super) fn segments(random: &mut Random, shape: &Shape, targets: &Targets) -> Vec<Segment> {
    // With very many segments most have no stored bytes, to keep images small.
    let empty = if shape.segments > 16 { 90 } else { 15 };
    let mut all = Vec::with_capacity(shape.segments);
    for index in 0..shape.segments {
        let last = index + 1 == shape.segments;
        all.push(if last && shape.window {
            window(random, shape.shift, targets)
        } else if index == 0 && shape.longest != Longest::Usual {
            long(random, shape.longest, targets)
        } else if random.chance(empty) {
            without_bytes(random)
        } else {
            let length = usual_length(random);
            stored(random, length, targets)
        });
    }
    if shape.shared {
        share_first(&mut all, random);
    }
    all
}

fn without_bytes(random: &mut Random) -> Segment {
    Segment {
        stored: Stored::None {
            length: random.edge_u16(),
        },
        // Records with sector 0 would be refused.
        flags: flags(random) & !HAS_RECORDS,
        allocation: match random.below(20) {
            0 => 0,
            1 => random.edge_u16(),
            _ => random.between(1, 300) as u16,
        },
        fixups: Vec::new(),
    }
}

fn usual_length(random: &mut Random) -> usize {
    match random.below(100) {
        0..=9 => random.between(1, 6),
        10..=79 => random.between(7, 60),
        80..=96 => random.between(61, 300),
        _ => random.between(301, 1500),
    }
}

fn stored(random: &mut Random, length: usize, targets: &Targets) -> Segment {
    let mut bytes = vec![0; length];
    random.fill(&mut bytes);
    let flags = flags(random);
    let count = match random.below(20) {
        0 | 1 => 0,
        2 => random.between(7, 40),
        _ => random.between(1, 6),
    };
    let fixups = if flags & HAS_RECORDS != 0 {
        fixups(random, &mut bytes, count, 6, targets)
    } else {
        Vec::new()
    };
    Segment {
        stored: Stored::Bytes(bytes),
        flags,
        allocation: allocation(random, length),
        fixups,
    }
}

/// A long segment, mostly with one chain through all of it.
fn long(random: &mut Random, longest: Longest, targets: &Targets) -> Segment {
    let length = match longest {
        Longest::Whole => 65_536,
        _ => random.between(2_000, 12_000),
    };
    let mut bytes = vec![0; length];
    random.fill(&mut bytes);
    let records = random.between(1, 4);
    let sites = random.pick(&[10, 1_000, 65_536]);
    Segment {
        fixups: fixups(random, &mut bytes, records, sites, targets),
        stored: Stored::Bytes(bytes),
        flags: flags(random) & !ITERATED | HAS_RECORDS,
        allocation: allocation(random, length),
    }
}

/// Stored bytes that are the headers and whatever else is placed before. They
/// can't hold a chain, so that all its fixups are additive or of the OS.
fn window(random: &mut Random, shift: u16, targets: &Targets) -> Segment {
    let sector = random.between(1, 64 >> shift);
    let mut fixups = Vec::new();
    let mut site = random.below(4);
    // At least the NE header's 64 bytes lie in the window.
    while site + 4 <= 64 && fixups.len() < 6 {
        let fixup: Fixup = if random.one_in(8) {
            os_fixup(random)
        } else {
            additive_at(random, site as u16, targets)
        };
        site += usize::from(fixup.span().unwrap_or(0)) + random.below(12);
        fixups.push(fixup);
    }
    Segment {
        stored: Stored::Window {
            sector: sector as u16,
        },
        flags: flags(random),
        allocation: 0,
        fixups,
    }
}

/// Gives the last segment the first one's bytes, where that has any.
fn share_first(all: &mut [Segment], random: &mut Random) {
    let first = all[0].clone();
    let (Stored::Bytes(bytes), Some(last)) = (&first.stored, all.last_mut()) else {
        return;
    };
    last.allocation = allocation(random, bytes.len());
    if random.chance(70) {
        last.flags = first.flags;
        last.fixups = first.fixups;
    } else {
        // What stands behind the stored bytes isn't looked at then.
        last.flags = first.flags & !HAS_RECORDS;
        last.fixups = Vec::new();
    }
    last.stored = first.stored;
}

/// Not under the stored length; 0 is 65,536.
fn allocation(random: &mut Random, length: usize) -> u16 {
    let drawn = match random.below(40) {
        0 => 0,
        1 => random.between(length, 65_536),
        2..=11 => (length + random.between(1, 9)).min(65_536),
        _ => length,
    };
    drawn as u16
}

/// Any bits; iterated rarely, records mostly.
fn flags(random: &mut Random) -> u16 {
    let mut flags = random.word() & !(ITERATED | HAS_RECORDS);
    if random.one_in(30) {
        flags |= ITERATED;
    }
    if random.chance(75) {
        flags |= HAS_RECORDS;
    }
    flags
}
