//! Entry tables, name lists, modules and resources at their edges.

use super::{case, one_segment, segment, shorter, Special};
use crate::description::{
    Bundle, Description, FixedEntry, MovableEntry, Name, NameList, Part, Put, Resource,
    ResourceBlock, Resources, TABLES,
};

pub(super) fn tables() -> Vec<Special> {
    let mut all = last_tables();
    all.extend(far_tables());
    all.extend(entry_tables());
    all.extend(name_lists());
    all.extend(resource_tables());
    all
}

/// A module with something in every table and one of them at the image's end.
fn last_tables() -> Vec<Special> {
    let mut all = Vec::new();
    for part in TABLES {
        for by in [0usize, 1, 2, 3] {
            let name = format!("{part:?} ends the image, less {by}");
            all.push(Special::new(name, move || {
                shorter(case(ending_with(part)), by)
            }));
        }
    }
    all
}

fn ending_with(part: Part) -> Description {
    let mut description = full();
    description.order.retain(|(other, _)| *other != part);
    description.order.push((part, Put::After { gap: 0 }));
    description
}

/// The same with all of them past 65,535.
fn far_tables() -> Vec<Special> {
    let far = |gap| {
        let name = format!("every table, {gap} bytes further");
        Special::of(name, move || {
            let mut description = full();
            description.order[0].1 = Put::After { gap };
            description
        })
    };
    [65_472, 65_536, 100_001].map(far).into()
}

fn full() -> Description {
    let mut description = one_segment(vec![0xFF; 16], Vec::new());
    description.entries.bundles = vec![fixed(1, 2), movable(1, 2)];
    description.entries.end = true;
    description.resident = names(&[b"MODULE", b"First", b"Second"]);
    description.nonresident = names(&[b"A description", b"First", b"Third"]);
    description.imported.push(b"");
    description.imported.push(b"KERNEL");
    description.modules = vec![1, 1];
    description.resources = Some(Resources {
        shift: 0,
        blocks: vec![block(0x8001, &[(64, 4, 0x8001), (68, 0, 0x8002)])],
        end: true,
    });
    description
}

fn fixed(segment: u8, count: usize) -> Bundle {
    let entry = FixedEntry {
        flag: 1,
        offset: 0x1000,
    };
    Bundle::Fixed {
        segment,
        entries: vec![entry; count],
    }
}

fn movable(segment: u8, count: usize) -> Bundle {
    let entry = MovableEntry {
        flag: 3,
        segment,
        offset: 0x2000,
    };
    Bundle::Movable {
        entries: vec![entry; count],
    }
}

fn names(texts: &[&[u8]]) -> NameList {
    NameList {
        names: texts
            .iter()
            .zip(0..)
            .map(|(text, ordinal)| Name {
                text: text.to_vec(),
                ordinal,
            })
            .collect(),
        end: true,
        ..NameList::default()
    }
}

fn block(kind: u16, resources: &[(u16, u16, u16)]) -> ResourceBlock {
    ResourceBlock {
        kind,
        reserved: 0,
        resources: resources
            .iter()
            .map(|&(offset, length, id)| Resource {
                offset,
                length,
                flags: 0x0C30,
                id,
                reserved: 0,
            })
            .collect(),
    }
}

fn entry_tables() -> Vec<Special> {
    let mut all = ordinal_counts();
    all.extend(entry_segments());
    all.push(Special::of(
        "254 to 256 as segments of entries",
        many_segments,
    ));
    all.push(Special::of("empty tables at extreme places", empty_tables));
    all
}

/// About the greatest count, 65,535, which is 257 times 255.
fn ordinal_counts() -> Vec<Special> {
    let nulls = |count| vec![Bundle::Null { count: 255 }; count];
    let then = |count, bundle| [nulls(count), vec![bundle]].concat();
    let one_null = Bundle::Null { count: 1 };
    let more = "65,536 ordinals";
    vec![
        entries("65,535 null ordinals", nulls(257), true, &[]),
        entries("65,536 null ordinals", then(257, one_null), true, &[]),
        entries(
            "65,535 ordinals, the last one used",
            then(256, fixed(1, 255)),
            true,
            &[],
        ),
        entries(
            &format!("{more}, the last one used"),
            then(257, fixed(1, 1)),
            true,
            &[],
        ),
        entries(
            &format!("{more} by a bundle without entries"),
            nulls(257),
            false,
            &[1, 1],
        ),
        entries(
            &format!("{more} by a bundle without segment"),
            nulls(257),
            false,
            &[1],
        ),
        entries("65,535 ordinals without end byte", nulls(257), false, &[]),
        entries(
            "255 entries of each kind",
            vec![fixed(1, 255), movable(1, 255)],
            true,
            &[],
        ),
        entries("21,675 entries", vec![fixed(1, 255); 85], true, &[]),
    ]
}

/// In a module of one segment.
fn entry_segments() -> Vec<Special> {
    let cut_short = &[2, 9, 1, 0, 0, 1];
    let other_interrupt = &[1, 255, 3, 0xCD, 0x3E, 1, 0, 0, 0];
    vec![
        entries(
            "an early missing segment, then no end byte",
            vec![fixed(9, 1)],
            false,
            &[],
        ),
        entries(
            "a missing segment in a bundle cut short",
            vec![],
            false,
            cut_short,
        ),
        entries(
            "movable entry without interrupt",
            vec![],
            false,
            other_interrupt,
        ),
        entries("movable entry of segment 0", vec![movable(0, 1)], true, &[]),
        entries(
            "movable entry of the segment past the last",
            vec![movable(2, 1)],
            true,
            &[],
        ),
        entries(
            "fixed entry of the segment past the last",
            vec![fixed(2, 1)],
            true,
            &[],
        ),
        entries("bytes after the end byte", vec![], true, &[9, 9, 9]),
    ]
}

/// A table of these bundles, the end byte if there is one, and then the bytes.
fn entries(name: &str, bundles: Vec<Bundle>, end: bool, bytes: &[u8]) -> Special {
    let trailing = bytes.to_vec();
    Special::of(name, move || {
        let mut description = one_segment(vec![0xFF; 16], Vec::new());
        description.entries.bundles = bundles.clone();
        description.entries.end = end;
        description.entries.trailing = trailing.clone();
        description
    })
}

fn many_segments() -> Description {
    let mut description = Description::empty();
    description.shift = 1;
    description.segments = vec![segment(vec![0xFF; 2], Vec::new()); 256];
    description.entries.bundles = vec![fixed(254, 1), movable(254, 1), movable(255, 1)];
    description.entries.end = true;
    description.in_usual_order()
}

/// Sized tables of size 0 whose places lead out of the image.
fn empty_tables() -> Description {
    let mut description = Description::empty().in_usual_order();
    for (part, put) in &mut description.order {
        let field = match part {
            Part::NonresidentNames => u32::MAX,
            Part::SegmentTable | Part::EntryTable | Part::ModuleReferences => 0xFFFF,
            _ => continue,
        };
        *put = Put::Raw { field };
    }
    description
}

fn name_lists() -> Vec<Special> {
    let mut all = Vec::new();
    for size in [0u16, 1, 2, 8, 9, 10, 0xFFFF] {
        let name = format!("nonresident size {size} for a list of 9 bytes");
        all.push(Special::of(name, move || {
            let mut description = full();
            description.nonresident = names(&[b"ABCDE"]);
            description.nonresident.size = Some(size);
            description
        }));
    }
    for (place, size) in [(u32::MAX, 1u16), (0xFFFF_0001, 0xFFFF), (0x8000_0000, 1)] {
        let name = format!("nonresident place {place:X}h and size {size}");
        all.push(Special::of(name, move || {
            let mut description = full();
            description.nonresident.size = Some(size);
            set_put(
                &mut description,
                Part::NonresidentNames,
                Put::Raw { field: place },
            );
            description
        }));
    }
    all.push(Special::of("names that are empty, equal and long", || {
        let long = [b'x'; 255];
        let mut description = full();
        description.resident = names(&[b"SAME", b"a", b"A", b"SAME", &long]);
        description.nonresident = names(&[b"late", b"A", b"late", b"SAME", &long]);
        description
    }));
    all
}

fn set_put(description: &mut Description, part: Part, put: Put) {
    for placed in &mut description.order {
        if placed.0 == part {
            placed.1 = put;
        }
    }
}

fn resource_tables() -> Vec<Special> {
    let one = |offset, length| vec![block(0x8001, &[(offset, length, 0x8001)])];
    let same = vec![block(
        0x8001,
        &[(0xFFFF, 1, 0x8002), (0, 1, 0x8001), (0, 2, 0x8001)],
    )];
    let twice = vec![
        block(0x8002, &[]),
        block(0x8001, &[(0, 1, 0x0001), (0, 1, 0x8001)]),
        block(0x0001, &[(0, 1, 0x8001)]),
        block(0x8001, &[(0, 3, 0x8001), (0, 4, 0x8003)]),
    ];
    let mut all = vec![
        resources("no resource", 0, vec![], true, 0),
        resources("no type that ends the resources", 0, vec![], false, 0),
        resources("resource shift 15", 15, one(0, 0), true, 0),
        resources("resource shift 16", 16, one(0, 0), true, 0),
        resources("resource shift FFFFh", 0xFFFF, vec![], true, 0),
        resources(
            "resource far past the image",
            15,
            one(0xFFFF, 0xFFFF),
            true,
            0,
        ),
        resources("the first match leaves the image", 0, same, true, 0),
        resources("a type in several blocks", 0, twice, true, 0),
    ];
    for (offset, length) in [(512, 0), (512, 1), (513, 0), (511, 1), (0, 512), (0, 513)] {
        let name = format!("resource at {offset}, {length} bytes, in 512");
        all.push(resources(&name, 0, one(offset, length), true, 512));
    }
    all
}

/// The image is filled up to `length` bytes.
fn resources(
    name: &str,
    shift: u16,
    blocks: Vec<ResourceBlock>,
    end: bool,
    length: usize,
) -> Special {
    Special::of(name, move || {
        let mut description = full();
        description.resources = Some(Resources {
            shift,
            blocks: blocks.clone(),
            end,
        });
        let built = super::build(&description).bytes.len();
        description.tail = length.saturating_sub(built) as u32;
        description
    })
}
