//! Random name lists (document 01, "Names").

use super::shape::Shape;
use crate::description::{Description, Name, NameList};
use crate::random::Random;

pub(super) fn name_lists(description: &mut Description, shape: &Shape, random: &mut Random) {
    let mut known = Vec::new();
    if !shape.resident_over_header && !random.chance(8) {
        description.resident = name_list(random, &mut known);
    }
    if shape.nonresident_over_resident {
        description.nonresident = description.resident.clone();
        return;
    }
    match random.below(10) {
        // Size 0.
        0 | 1 => {}
        2 => description.nonresident.end = true,
        _ => description.nonresident = name_list(random, &mut known),
    }
    let list = &mut description.nonresident;
    if list.end && random.chance(20) {
        list.trailing = vec![0; random.between(1, 6)];
        random.fill(&mut list.trailing);
    }
}

/// Names that often equal or nearly equal those in `known`.
fn name_list(random: &mut Random, known: &mut Vec<Vec<u8>>) -> NameList {
    let count = match random.below(900) {
        0 => random.between(300, 2_000),
        1..=30 => random.between(7, 30),
        _ => random.between(1, 6),
    };
    let mut list = NameList {
        end: true,
        ..NameList::default()
    };
    for _ in 0..count {
        let text = match random.below(10) {
            0 | 1 if !known.is_empty() => known[random.below(known.len())].clone(),
            2 if !known.is_empty() => variant(&known[random.below(known.len())], random),
            _ => text(random),
        };
        known.push(text.clone());
        let ordinal = random.edge_u16();
        list.names.push(Name { text, ordinal });
    }
    list
}

/// 1 to 255 bytes, mostly a few letters.
pub(super) fn text(random: &mut Random) -> Vec<u8> {
    let length = match random.below(60) {
        0 => 255,
        1 => random.between(9, 254),
        _ => random.between(1, 8),
    };
    let mut text = vec![0; length];
    if random.chance(10) {
        random.fill(&mut text);
    } else {
        for byte in &mut text {
            *byte = random.pick(b"ABCabc_1");
        }
    }
    text
}

/// A name that differs a little: one letter's case, one byte more or less.
fn variant(text: &[u8], random: &mut Random) -> Vec<u8> {
    let mut changed = text.to_vec();
    match random.below(3) {
        0 if changed.len() > 1 => {
            changed.pop();
        }
        1 if changed.len() < 255 => changed.push(b'A'),
        _ => {
            let at = random.below(changed.len());
            changed[at] ^= 0x20;
        }
    }
    changed
}
