//! Random fixups whose spans are disjoint and lie in the stored bytes, with
//! their chains written there (document 01, "Fixup rules").

use crate::description::{Fixup, Target, ADDITIVE};
use crate::random::Random;

/// What fixups of a module can point at.
pub(crate) struct Targets<'a> {
    /// Segment count; at least 1.
    pub(crate) segments: usize,
    /// Ordinals that aren't null.
    pub(crate) ordinals: &'a [u16],
    pub(crate) modules: usize,
    /// Places of sound imported strings.
    pub(crate) strings: &'a [u16],
}

/// Low byte, selector, far pointer, offset.
const TYPES: [u8; 4] = [0, 2, 3, 5];
const CHAIN_END: u16 = 0xFFFF;

/// Up to `count` fixups with up to `most_sites` sites each. Fewer where the
/// stored bytes have no room for more.
pub(crate) fn fixups(
    random: &mut Random,
    stored: &mut [u8],
    count: usize,
    most_sites: usize,
    targets: &Targets,
) -> Vec<Fixup> {
    let mut room = stored.len();
    let mut fixups = Vec::new();
    // The record of every span.
    let mut spans: Vec<u32> = Vec::new();
    for _ in 0..count {
        let fixup = fixup(random, targets);
        let sites = match fixup.span() {
            None => 0,
            Some(width) => {
                let fit = room / usize::from(width);
                if fit == 0 {
                    continue;
                }
                let wanted = if fixup.is_additive() { 1 } else { most_sites };
                let sites = random.between(1, wanted.min(fit));
                room -= sites * usize::from(width);
                sites
            }
        };
        spans.extend(std::iter::repeat_n(fixups.len() as u32, sites));
        fixups.push(fixup);
    }
    if random.chance(70) {
        random.shuffle(&mut spans);
    }
    let mut placed = lay_out(random, &fixups, &spans, room);
    match random.below(5) {
        0 => {}
        1 => placed.reverse(),
        _ => random.shuffle(&mut placed),
    }
    link(stored, &mut fixups, &placed);
    fixups
}

/// An additive fixup at that site.
pub(crate) fn additive_at(random: &mut Random, site: u16, targets: &Targets) -> Fixup {
    let mut fixup = fixup(random, targets);
    while fixup.flags & 3 == 3 {
        fixup = self::fixup(random, targets);
    }
    fixup.flags |= ADDITIVE;
    fixup.site = site;
    fixup
}

/// An OS fixup: its site and target words mean nothing.
pub(crate) fn os_fixup(random: &mut Random) -> Fixup {
    Fixup {
        kind: kind(random),
        flags: high_bits(random, 3) | random.pick(&[3, 7]),
        site: random.edge_u16(),
        target: Target::Os {
            kind: random.edge_u16(),
            reserved: random.edge_u16(),
        },
    }
}

/// A fixup whose site is still to be set.
fn fixup(random: &mut Random, targets: &Targets) -> Fixup {
    if random.one_in(10) {
        return os_fixup(random);
    }
    let (relation, target) = target(random, targets);
    let additive = if random.chance(35) { ADDITIVE } else { 0 };
    Fixup {
        kind: kind(random),
        flags: high_bits(random, 3) | additive | relation,
        site: 0,
        target,
    }
}

fn kind(random: &mut Random) -> u8 {
    high_bits(random, 4) | random.pick(&TYPES)
}

/// Bits that no reader looks at, above the low `looked_at`; often none.
fn high_bits(random: &mut Random, looked_at: u32) -> u8 {
    if random.chance(60) {
        0
    } else {
        random.byte() >> looked_at << looked_at
    }
}

/// A target that resolves, and flag bits 0 and 1.
fn target(random: &mut Random, targets: &Targets) -> (u8, Target) {
    let module = |random: &mut Random| {
        let least = if random.chance(20) {
            targets.modules
        } else {
            1
        };
        random.between(least, targets.modules) as u16
    };
    let reserved = if random.chance(70) { 0 } else { random.byte() };
    match random.below(4) {
        0 if !targets.ordinals.is_empty() => {
            let ordinal = random.pick(targets.ordinals);
            (0, Target::Ordinal { reserved, ordinal })
        }
        1 if targets.modules > 0 => {
            let module = module(random);
            let ordinal = random.edge_u16();
            (1, Target::ImportOrdinal { module, ordinal })
        }
        2 if targets.modules > 0 && !targets.strings.is_empty() => {
            let module = module(random);
            let string = random.pick(targets.strings);
            (2, Target::ImportName { module, string })
        }
        _ => {
            // 255 in this byte would mean an ordinal.
            let number = random.between(1, targets.segments.min(254)) as u8;
            let offset = random.edge_u16();
            (
                0,
                Target::Segment {
                    number,
                    reserved,
                    offset,
                },
            )
        }
    }
}

/// Gives the spans their places, upwards, with `room` bytes left between them.
fn lay_out(random: &mut Random, fixups: &[Fixup], spans: &[u32], room: usize) -> Vec<(u32, u16)> {
    let mut gaps = Gaps::choose(random, room, spans.len());
    let mut end = 0;
    let mut placed = Vec::with_capacity(spans.len());
    for &record in spans {
        let place = end + gaps.next(random);
        placed.push((record, place as u16));
        end = place + usize::from(fixups[record as usize].span().unwrap_or(0));
    }
    placed
}

/// Makes the sites of each record its chain, in the given order.
fn link(stored: &mut [u8], fixups: &mut [Fixup], placed: &[(u32, u16)]) {
    // The last site of each record so far.
    let mut last: Vec<Option<u16>> = vec![None; fixups.len()];
    for &(record, place) in placed {
        let fixup = &mut fixups[record as usize];
        match last[record as usize].replace(place) {
            None => fixup.site = place,
            Some(before) => put_word(stored, before, place),
        }
        if !fixup.is_additive() {
            put_word(stored, place, CHAIN_END);
        }
    }
}

fn put_word(bytes: &mut [u8], at: u16, value: u16) {
    let at = usize::from(at);
    bytes[at..at + 2].copy_from_slice(&value.to_le_bytes());
}

/// How the free bytes are spread between spans.
enum Gaps {
    /// All of them at the end, so that the first site is 0.
    Last,
    /// All of them first, so that the last span ends with the stored bytes.
    First(usize),
    /// The same number before each span.
    Even(usize),
    /// Up to so many before each span, of so many in all.
    Random { most: usize, left: usize },
}

impl Gaps {
    fn choose(random: &mut Random, room: usize, spans: usize) -> Self {
        let each = room / (spans + 1);
        match random.below(6) {
            0 => Gaps::Last,
            1 => Gaps::First(room),
            2 => Gaps::Even(each),
            _ => Gaps::Random {
                most: 2 * each + 2,
                left: room,
            },
        }
    }

    fn next(&mut self, random: &mut Random) -> usize {
        match self {
            Gaps::Last => 0,
            Gaps::First(room) => std::mem::take(room),
            Gaps::Even(each) => *each,
            Gaps::Random { most, left } => {
                let gap = random.below((*most).min(*left) + 1);
                *left -= gap;
                gap
            }
        }
    }
}
