//! Many records by ordinal, far into a long entry table.

use super::{internal, one_segment, Special};
use crate::description::{
    Bundle, Description, EntryTable, FixedEntry, Fixup, MovableEntry, Target, ADDITIVE,
};
use crate::random::Random;

const BUNDLES: usize = 3_000;
const RECORDS: u16 = 4_000;

pub(super) fn ordinals() -> Vec<Special> {
    vec![
        Special::of("4,000 records by ordinal", || by_ordinal(None)),
        Special::of(
            "4,000 records by ordinal, the last of which is null",
            || by_ordinal(Some(Bundle::Null { count: 1 })),
        ),
    ]
}

/// Additive low bytes, in turn for all ordinals that have an entry. The last one
/// is for the first ordinal of the last bundle, if that is given.
fn by_ordinal(last: Option<Bundle>) -> Description {
    let mut random = Random::new(1);
    let mut entries = EntryTable {
        bundles: (0..BUNDLES).map(|_| bundle(&mut random)).collect(),
        end: true,
        ..EntryTable::default()
    };
    let mut ordinals = entries.used_ordinals();
    random.shuffle(&mut ordinals);
    let each = (0..RECORDS).zip(ordinals.iter().cycle());
    let mut fixups: Vec<Fixup> = each.map(|(site, ordinal)| fixup(site, *ordinal)).collect();
    if let Some(bundle) = last {
        let ordinal = entries.ordinals() as u16 + 1;
        entries.bundles.push(bundle);
        fixups[usize::from(RECORDS) - 1] = fixup(RECORDS - 1, ordinal);
    }
    let mut description = one_segment(vec![0x5A; usize::from(RECORDS)], fixups);
    description.entries = entries;
    description
}

/// One of any kind with up to 6 ordinals, whose entries differ.
fn bundle(random: &mut Random) -> Bundle {
    let count = random.between(1, 6);
    let flag = 1;
    let segment = 1;
    match random.below(3) {
        0 => Bundle::Null { count: count as u8 },
        1 => Bundle::Fixed {
            segment,
            entries: (0..count)
                .map(|_| FixedEntry {
                    flag,
                    offset: random.word(),
                })
                .collect(),
        },
        _ => Bundle::Movable {
            entries: (0..count)
                .map(|_| MovableEntry {
                    flag,
                    segment,
                    offset: random.word(),
                })
                .collect(),
        },
    }
}

fn fixup(site: u16, ordinal: u16) -> Fixup {
    let target = Target::Ordinal {
        reserved: 0,
        ordinal,
    };
    Fixup {
        target,
        ..internal(0, ADDITIVE, site, 0)
    }
}
