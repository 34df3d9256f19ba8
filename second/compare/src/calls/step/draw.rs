//! The requests that the step is asked, most of which preparing would refuse.

use super::Stepping;
use crate::calls::held::{self, Held};
use crate::inputs::Input;
use crate::stated;
use builder::Random;

/// Low byte, selector, far pointer, offset.
const TYPES: [u8; 4] = [0, 2, 3, 5];

pub fn worth_stepping(input: &Input, request: u64, random: &mut Random) -> Stepping {
    let ground = Ground::of(input, random);
    let record = ground.record(request, random);
    let buffer = ground.buffer(request, random);
    let selectors = ground.selectors(request, random);
    Stepping {
        record,
        answer: random.edge_u32(),
        selectors: Held::drawn(held::selectors(selectors, random), random),
        buffer: Held::drawn(buffer, random),
    }
}

/// What the image states.
struct Ground {
    segments: usize,
    modules: usize,
    ordinals: usize,
    records: Vec<[u8; 8]>,
    /// Stored bytes, and zeros up to the allocation.
    bytes: Vec<u8>,
}

impl Ground {
    /// With the bytes and the records of one segment.
    fn of(input: &Input, random: &mut Random) -> Self {
        let image = &input.bytes;
        let segments = stated::segment_count(image) as usize;
        // Where there are many, most of the others have no records.
        let any = match random.chance(50) {
            true => 1,
            false => 1 + random.below(segments) as u32,
        };
        let bundles = stated::bundles(image);
        let mut ground = Ground {
            segments,
            modules: stated::module_count(image) as usize,
            ordinals: bundles.last().map_or(0, |bundle| bundle.last() as usize),
            records: Vec::new(),
            bytes: Vec::new(),
        };
        if let Some(segment) = stated::segment(image, input.segment.unwrap_or(any)) {
            ground.records = segment.record_bytes(image);
            ground.bytes = segment.stored_bytes(image).to_vec();
            ground.bytes.resize(segment.allocation, 0);
        }
        ground
    }

    /// One of the image as it stands or with another site; or one that is made
    /// up; or any 8 bytes.
    fn record(&self, request: u64, random: &mut Random) -> [u8; 8] {
        let own = match self.records.is_empty() {
            true => self.made_up(random),
            false => random.pick(&self.records),
        };
        match request {
            0 | 1 => own,
            2 => {
                let [low, high] = self.site(random).to_le_bytes();
                [own[0], own[1], low, high, own[4], own[5], own[6], own[7]]
            }
            7 => random.next_u64().to_le_bytes(),
            _ => self.made_up(random),
        }
    }

    /// Mostly of a known type, and mostly with a target that resolves.
    fn made_up(&self, random: &mut Random) -> [u8; 8] {
        let kind = match random.one_in(12) {
            true => random.byte(),
            false => random.pick(&TYPES) | random.byte() & 0xF0,
        };
        let flags = match random.one_in(3) {
            true => random.byte(),
            false => random.pick(&[0, 0, 1, 2]),
        };
        let [low, high] = self.site(random).to_le_bytes();
        let [first, next, last, end] = self.target(flags & 3, random);
        [kind, flags, low, high, first, next, last, end]
    }

    /// A number from 1 to the count or just beyond, now and then with another
    /// high byte, and any word or an ordinal.
    fn target(&self, relation: u8, random: &mut Random) -> [u8; 4] {
        let count = match relation {
            0 => self.segments.min(254),
            _ => self.modules,
        };
        let beyond = usize::from(random.one_in(6));
        let mut first = (1 + random.below(count + beyond)) as u16;
        if random.one_in(8) {
            first |= 0x0100;
        }
        let mut last = random.edge_u16();
        if relation == 0 && random.one_in(3) {
            first |= 0xFF;
            last = (1 + random.below(self.ordinals + 1)) as u16;
        }
        if relation == 2 && random.chance(70) {
            last = random.below(40) as u16;
        }
        let ([first, next], [last, end]) = (first.to_le_bytes(), last.to_le_bytes());
        [first, next, last, end]
    }

    /// Mostly small, so that it lies in short buffers too.
    fn site(&self, random: &mut Random) -> u16 {
        match random.below(8) {
            0 => random.edge_u16(),
            1 => random.below(self.bytes.len() + 2) as u16,
            _ => random.below(12) as u16,
        }
    }

    /// The segment's own bytes, also with a few more or one less; short ones; and
    /// ones in which chains cross and turn back.
    fn buffer(&self, request: u64, random: &mut Random) -> Vec<u8> {
        let mut bytes = self.bytes.clone();
        match request {
            0 | 2 => {}
            1 => {
                let more = random.pick(&[0, 2, 2, 5]);
                bytes.resize((bytes.len() + more).saturating_sub(1), 0xFF);
            }
            3 => bytes = chains(random.below(10), random),
            _ => {
                let length = random.pick(&[9, 20, 60]);
                bytes = chains(random.below(length), random);
            }
        }
        bytes
    }

    fn selectors(&self, request: u64, random: &mut Random) -> usize {
        match request {
            0 | 2 => self.segments,
            5 => random.below(self.segments + 1),
            _ => self.segments + random.below(3),
        }
    }
}

/// Bytes that are mostly sites among themselves: words under their number, at
/// even or at any places, and now and then the end of a chain.
fn chains(length: usize, random: &mut Random) -> Vec<u8> {
    let mut bytes = vec![0; length];
    random.fill(&mut bytes);
    let step = random.between(1, 2);
    let ends = random.pick(&[0, 5, 20]);
    for at in (0..length.saturating_sub(1)).step_by(step) {
        let next = match random.chance(ends) {
            true => 0xFFFF,
            false => random.below(length) as u16,
        };
        bytes[at..at + 2].copy_from_slice(&next.to_le_bytes());
    }
    bytes
}
