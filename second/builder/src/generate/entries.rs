//! Random entry tables (document 01, "Entry table").

use crate::description::{Bundle, EntryTable, FixedEntry, MovableEntry};
use crate::random::Random;

/// A sound table for a module of that many segments.
pub(super) fn entry_table(random: &mut Random, segments: usize) -> EntryTable {
    let mut table = EntryTable::default();
    if random.chance(8) {
        return table;
    }
    table.bundles = if random.one_in(1000) {
        most_ordinals(random, segments)
    } else {
        few_bundles(random, segments)
    };
    table.end = true;
    if random.chance(25) {
        table.trailing = vec![0; random.between(1, 5)];
        random.fill(&mut table.trailing);
    }
    table
}

fn few_bundles(random: &mut Random, segments: usize) -> Vec<Bundle> {
    let count = match random.below(40) {
        0..=2 => 0,
        3 => random.between(5, 20),
        _ => random.between(1, 4),
    };
    (0..count).map(|_| bundle(random, segments)).collect()
}

/// 65,535 ordinals or a few less, most of them null.
fn most_ordinals(random: &mut Random, segments: usize) -> Vec<Bundle> {
    let mut bundles = vec![Bundle::Null { count: 255 }; 256];
    let mut left = 255;
    loop {
        let next = bundle(random, segments);
        if next.count() > left {
            break;
        }
        left -= next.count();
        bundles.push(next);
    }
    if left > 0 && random.chance(50) {
        bundles.push(Bundle::Null { count: left as u8 });
    }
    random.shuffle(&mut bundles);
    bundles
}

fn bundle(random: &mut Random, segments: usize) -> Bundle {
    let count = match random.below(60) {
        0 => 255,
        1 => random.between(5, 254),
        _ => random.between(1, 4),
    };
    if segments == 0 || random.chance(25) {
        return Bundle::Null { count: count as u8 };
    }
    if random.chance(50) {
        Bundle::Fixed {
            // 255 in this place would make the bundle movable.
            segment: segment(random, segments.min(254)),
            entries: (0..count).map(|_| fixed_entry(random)).collect(),
        }
    } else {
        Bundle::Movable {
            entries: (0..count)
                .map(|_| movable_entry(random, segments.min(255)))
                .collect(),
        }
    }
}

fn segment(random: &mut Random, greatest: usize) -> u8 {
    if random.chance(20) {
        greatest as u8
    } else {
        random.between(1, greatest) as u8
    }
}

fn fixed_entry(random: &mut Random) -> FixedEntry {
    FixedEntry {
        flag: random.byte(),
        offset: random.edge_u16(),
    }
}

fn movable_entry(random: &mut Random, greatest: usize) -> MovableEntry {
    MovableEntry {
        flag: random.byte(),
        segment: segment(random, greatest),
        offset: random.edge_u16(),
    }
}
