//! The greatest counts: sites, records, names, resources, modules and segments.

use super::{case, internal, one_segment, shorter, Special};
use crate::description::{
    Description, Name, NameList, Part, Put, Resource, ResourceBlock, Resources, Segment, Stored,
    Target, ADDITIVE,
};
use crate::random::Random;

const WHOLE: usize = 65_536;

pub(super) fn large() -> Vec<Special> {
    vec![
        Special::of("a chain of 32,768 sites, upwards", || chain(5, upwards(2))),
        Special::of("a chain of 32,768 sites, downwards", || {
            chain(2, upwards(2).into_iter().rev().collect())
        }),
        Special::of("a chain of 32,768 sites, mixed", || {
            let mut sites = upwards(2);
            Random::new(1).shuffle(&mut sites);
            chain(0, sites)
        }),
        Special::of("a chain of 16,384 far pointers", || chain(3, upwards(4))),
        Special::of("65,535 records", || records(0)),
        Special::of("65,535 records, the last one in another's site", || {
            records(1)
        }),
        Special::of("65,535 OS fixups on 1 byte", os_fixups),
        Special::of("65,537 resident names", || resident(65_537)),
        Special::new("65,537 resident names, less 1", || {
            shorter(case(resident(65_537)), 1)
        }),
        Special::of("16,383 nonresident names", nonresident),
        Special::of("16,383 nonresident names, not ended", || {
            let mut description = nonresident();
            description.nonresident.size = Some(65_532);
            description
        }),
        Special::of("65,530 resident and 10 nonresident names", both_lists),
        Special::of("65,540 resources", || resources(65_535, 5)),
        Special::new("65,540 resources, less 1", || {
            shorter(case(resources(65_535, 5)), 1)
        }),
        Special::of("3,000 resources in 1,000 types", many_types),
        Special::of("65,535 modules", modules),
        Special::of("65,535 segments", segments),
    ]
}

/// All multiples of `step` in a segment of 65,536 bytes.
fn upwards(step: usize) -> Vec<u16> {
    (0..WHOLE).step_by(step).map(|site| site as u16).collect()
}

/// One chained record through the sites in this order.
fn chain(kind: u8, sites: Vec<u16>) -> Description {
    let mut stored = vec![0x5A; WHOLE];
    let nexts = sites[1..].iter().copied().chain([0xFFFF]);
    for (site, next) in sites.iter().zip(nexts) {
        let at = usize::from(*site);
        stored[at..at + 2].copy_from_slice(&next.to_le_bytes());
    }
    one_segment(stored, vec![internal(kind, 0, sites[0], 0x1234)])
}

/// Additive low bytes at all sites but one; `meeting` moves the last of them
/// that many sites down.
fn records(meeting: u16) -> Description {
    let stored = (0..WHOLE).map(|at| at as u8).collect();
    let site = |n: u16| if n == 0xFFFF { n - meeting } else { n };
    let fixups = (1..=0xFFFF).map(|n| internal(0, ADDITIVE, site(n), n));
    one_segment(stored, fixups.collect())
}

fn os_fixups() -> Description {
    let mut fixup = internal(5, 3, 0xFFFF, 0);
    fixup.target = Target::Os {
        kind: 1,
        reserved: 0,
    };
    one_segment(vec![1], vec![fixup; 65_535])
}

/// Three letters each, so that most names differ.
fn names(count: usize) -> NameList {
    let letter = |n: usize| b'0' + (n % 64) as u8;
    let name = |n: usize| Name {
        text: vec![letter(n), letter(n / 64), letter(n / 4096)],
        ordinal: n as u16,
    };
    NameList {
        names: (0..count).map(name).collect(),
        end: true,
        ..NameList::default()
    }
}

/// Puts the part after all others, since table places are words.
fn ending_with(description: Description, part: Part) -> Description {
    let mut description = description.in_usual_order();
    description.order.retain(|(other, _)| *other != part);
    description.order.push((part, Put::After { gap: 0 }));
    description
}

fn resident(count: usize) -> Description {
    let mut description = Description::empty();
    description.resident = names(count);
    ending_with(description, Part::ResidentNames)
}

/// The longest list of a nonresident size: 65,532 bytes, the end byte and two more.
fn nonresident() -> Description {
    let mut description = Description::empty();
    let mut list = names(16_383);
    for name in &mut list.names {
        name.text.truncate(1);
    }
    list.trailing = vec![0xEE; 2];
    description.nonresident = list;
    ending_with(description, Part::NonresidentNames)
}

/// The numbers of the nonresident names pass 65,535.
fn both_lists() -> Description {
    let mut description = resident(65_530);
    let mut list = names(10);
    for name in &mut list.names {
        name.text.push(b'!');
    }
    description.nonresident = list;
    description
}

fn resource(n: usize) -> Resource {
    Resource {
        offset: (n % 128) as u16,
        length: (n % 3) as u16,
        flags: n as u16,
        id: 0x8000 | n as u16,
        reserved: 0,
    }
}

fn with_resources(blocks: Vec<ResourceBlock>) -> Description {
    let mut description = Description::empty();
    description.resources = Some(Resources {
        shift: 0,
        blocks,
        end: true,
    });
    ending_with(description, Part::Resources)
}

/// Two types with so many resources each.
fn resources(first: usize, second: usize) -> Description {
    let block = |kind: u16, from: usize, count: usize| ResourceBlock {
        kind,
        reserved: 0,
        resources: (from..from + count).map(resource).collect(),
    };
    with_resources(vec![block(0x8001, 0, first), block(0x8002, first, second)])
}

fn many_types() -> Description {
    let block = |n: usize| ResourceBlock {
        kind: 0x8000 | n as u16,
        reserved: 0,
        resources: (3 * n..3 * n + 3).map(resource).collect(),
    };
    with_resources((0..1_000).map(block).collect())
}

fn modules() -> Description {
    let mut description = Description::empty();
    description.imported.push(b"");
    let kernel = description.imported.push(b"KERNEL");
    description.modules = vec![kernel; 65_535];
    ending_with(description, Part::ModuleReferences)
}

fn segments() -> Description {
    let mut description = Description::empty();
    let segment = |n: u16| Segment {
        stored: Stored::None { length: n },
        flags: n & 0x0010,
        allocation: n,
        fixups: Vec::new(),
    };
    description.segments = (0..65_535).map(segment).collect();
    ending_with(description, Part::SegmentTable)
}
