//! Random resource tables (document 01, "Resources").

use super::shape::Shape;
use crate::description::{Description, Resource, ResourceBlock, Resources};
use crate::random::Random;

/// A table whose offsets and lengths [`aim`] sets later.
pub(super) fn resources(random: &mut Random, shape: &Shape) -> Option<Resources> {
    if shape.resources_over_header {
        let (shift, blocks) = (0, Vec::new());
        return Some(Resources {
            shift,
            blocks,
            end: true,
        });
    }
    if random.chance(45) {
        return None;
    }
    let shift = match random.below(10) {
        0..=5 => random.between(0, 4),
        6..=8 => random.between(5, 9),
        _ => random.between(10, 15),
    };
    Some(Resources {
        shift: shift as u16,
        blocks: (0..random.below(5)).map(|_| block(random)).collect(),
        end: true,
    })
}

fn block(random: &mut Random) -> ResourceBlock {
    let count = match random.below(2_000) {
        0 => random.between(300, 1_500),
        1..=40 => random.between(5, 40),
        _ => random.below(5),
    };
    ResourceBlock {
        // Type 0 would end the table.
        kind: word(random).max(1),
        reserved: random.edge_u32(),
        resources: (0..count).map(|_| resource(random)).collect(),
    }
}

fn resource(random: &mut Random) -> Resource {
    Resource {
        offset: 0,
        length: 0,
        flags: random.edge_u16(),
        id: word(random),
        reserved: random.edge_u32(),
    }
}

/// A type or id: mostly one of few with the high bit set, so that they repeat.
fn word(random: &mut Random) -> u16 {
    match random.below(10) {
        0 => random.edge_u16() & 0x7FFF,
        1 => random.edge_u16() | 0x8000,
        _ => 0x8000 + random.between(1, 4) as u16,
    }
}

/// Points the resources into an image of that length; a few past its end.
/// False where there is no resource.
pub(super) fn aim(description: &mut Description, length: usize, random: &mut Random) -> bool {
    let Some(table) = &mut description.resources else {
        return false;
    };
    let units = (length >> table.shift).min(0xFFFF);
    let mut any = false;
    for resource in table.blocks.iter_mut().flat_map(|b| &mut b.resources) {
        let (offset, length) = extent(random, units);
        (resource.offset, resource.length) = (offset as u16, length as u16);
        any = true;
    }
    any
}

fn extent(random: &mut Random, units: usize) -> (usize, usize) {
    let offset = random.below(units + 1);
    match random.below(20) {
        // One unit past the end, and anywhere.
        0 => (offset, (units - offset + 1).min(0xFFFF)),
        1 => (
            usize::from(random.edge_u16()),
            usize::from(random.edge_u16()),
        ),
        // Up to the end, and empty at the end.
        2..=4 => (offset, units - offset),
        5 => (units, 0),
        _ => (offset, random.below(units - offset + 1)),
    }
}
