//! Which segment a damage touches, so that it is asked for.

use builder::damage::Change;
use builder::{FieldKind, TableKind};

/// The number of the first segment that a change touches.
pub fn segment_of(changes: &[Change]) -> Option<u32> {
    let index = changes.iter().find_map(|change| match change {
        Change::Field { field, .. } => of_field(field.what),
        Change::Swapped { first, second } => of_field(first.what).or(of_field(second.what)),
        Change::Scrambled { table, .. } => of_table(table.what),
        Change::Flipped { .. } | Change::Truncated { .. } | Change::Extended { .. } => None,
    });
    index.map(|index| u32::from(index) + 1)
}

fn of_field(what: FieldKind) -> Option<u16> {
    match what {
        FieldKind::SegmentSector(index)
        | FieldKind::SegmentLength(index)
        | FieldKind::SegmentFlags(index)
        | FieldKind::SegmentAllocation(index)
        | FieldKind::RecordCount(index)
        | FieldKind::RecordType(index, _)
        | FieldKind::RecordFlags(index, _)
        | FieldKind::RecordSite(index, _)
        | FieldKind::TargetSegment(index, _)
        | FieldKind::TargetReserved(index, _)
        | FieldKind::TargetFirst(index, _)
        | FieldKind::TargetLast(index, _)
        | FieldKind::NextSite(index, _) => Some(index),
        _ => None,
    }
}

fn of_table(what: TableKind) -> Option<u16> {
    match what {
        TableKind::Stored(index) | TableKind::Records(index) => Some(index),
        _ => None,
    }
}
