//! Puts the parts in some order, with gaps and with borrowed places.

use super::shape::Shape;
use crate::description::{Description, Part, Put, Stored, TABLES};
use crate::random::Random;

/// Images that stay under this reach every place with every field.
const SMALL: usize = 40_000;

pub(super) fn arrange(description: &mut Description, shape: &Shape, random: &mut Random) {
    let sizes: Vec<usize> = (0..description.segments.len())
        .map(|index| segment_size(description, index))
        .collect();
    let total: usize = sizes.iter().sum();
    let mut segments: Vec<usize> = (0..sizes.len()).collect();
    let mut order = Vec::new();
    if total < SMALL {
        random.shuffle(&mut segments);
        mixed(description, shape, random, &segments, &mut order);
    } else {
        // Table places are words, and so are sectors: the longest goes last.
        segments.sort_by_key(|index| sizes[*index]);
        order.push(Part::Header);
        order.extend(TABLES);
        order.extend(segments.into_iter().map(Part::Segment));
        if total - sizes.iter().max().unwrap_or(&0) > SMALL {
            description.shift = description.shift.max(4);
        }
    }
    borrowers_last(&mut order, shape, description.segments.len());
    description.order = order
        .into_iter()
        .map(|part| (part, put(part, description, shape, random)))
        .collect();
}

/// Segments and tables in any order; now and then segments before the header.
fn mixed(
    description: &Description,
    shape: &Shape,
    random: &mut Random,
    segments: &[usize],
    order: &mut Vec<Part>,
) {
    let early = if random.one_in(12) && description.shift < 6 && !shape.window {
        random.below(segments.len() + 1)
    } else {
        0
    };
    order.extend(segments[..early].iter().copied().map(Part::Segment));
    order.push(Part::Header);
    let from = order.len();
    order.extend(TABLES);
    order.extend(segments[early..].iter().copied().map(Part::Segment));
    match random.below(3) {
        // As linkers do.
        0 => {}
        1 => random.shuffle(&mut order[from..from + TABLES.len()]),
        _ => random.shuffle(&mut order[from..]),
    }
}

/// Moves parts that stand on others behind those.
fn borrowers_last(order: &mut Vec<Part>, shape: &Shape, segments: usize) {
    let mut move_last = |part: Part| {
        order.retain(|other| *other != part);
        order.push(part);
    };
    if shape.imported_over_resident {
        move_last(Part::ImportedNames);
    }
    if shape.nonresident_over_resident {
        move_last(Part::NonresidentNames);
    }
    if shape.shared || shape.window {
        move_last(Part::Segment(segments - 1));
    }
}

fn put(part: Part, description: &Description, shape: &Shape, random: &mut Random) -> Put {
    let over = |part, offset| Put::Over { part, offset };
    let last = description.segments.len().wrapping_sub(1);
    match part {
        // The resident list at 3Eh and the resource table at 34h to 3Ah differ.
        Part::ResidentNames if shape.resident_over_header => over(Part::Header, 0x3E),
        Part::Resources if shape.resources_over_header => {
            over(Part::Header, random.between(0x34, 0x3A) as u32)
        }
        Part::ImportedNames if shape.imported_over_resident => over(Part::ResidentNames, 0),
        Part::NonresidentNames if shape.nonresident_over_resident => over(Part::ResidentNames, 0),
        Part::Segment(index) if shape.shared && index == last && shares(description) => {
            over(Part::Segment(0), 0)
        }
        _ if is_empty(part, description) && random.chance(40) => Put::Raw {
            field: match part {
                Part::NonresidentNames => random.edge_u32(),
                _ => u32::from(random.edge_u16()),
            },
        },
        _ => Put::After {
            gap: gap(random, part),
        },
    }
}

fn gap(random: &mut Random, part: Part) -> u32 {
    let often = if part == Part::Header { 30 } else { 12 };
    if random.chance(often) {
        random.between(1, 40) as u32
    } else {
        0
    }
}

/// Sized tables of size 0, whose places aren't looked at.
fn is_empty(part: Part, description: &Description) -> bool {
    match part {
        Part::SegmentTable => description.segments.is_empty(),
        Part::ModuleReferences => description.modules.is_empty(),
        Part::EntryTable => !description.entries.end,
        Part::NonresidentNames => !description.nonresident.end,
        _ => false,
    }
}

/// Whether the last segment was given the first one's bytes.
fn shares(description: &Description) -> bool {
    matches!(description.segments[0].stored, Stored::Bytes(_))
}

/// What a segment takes up at most, its way to the next sector included.
fn segment_size(description: &Description, index: usize) -> usize {
    let segment = &description.segments[index];
    match &segment.stored {
        Stored::Bytes(bytes) => {
            (1 << description.shift) + bytes.len() + 2 + 8 * segment.fixups.len()
        }
        _ => 0,
    }
}
