//! The choices that several parts of a description depend on.

use crate::random::Random;

/// How long the longest segment gets.
#[derive(Clone, Copy, Debug, PartialEq, Eq)]
pub(super) enum Longest {
    Usual,
    /// A segment of thousands of bytes with a chain through it.
    LongChain,
    /// A segment of 65,536 bytes.
    Whole,
}

pub(super) struct Shape {
    pub(super) shift: u16,
    pub(super) segments: usize,
    pub(super) longest: Longest,
    /// The imported names are the resident list's bytes.
    pub(super) imported_over_resident: bool,
    /// Both name lists are the same bytes.
    pub(super) nonresident_over_resident: bool,
    /// An empty resident list is read from the NE header's last bytes.
    pub(super) resident_over_header: bool,
    /// An empty resource table is read from there.
    pub(super) resources_over_header: bool,
    /// The last segment's stored bytes are all that precedes it.
    pub(super) window: bool,
    /// The last segment has the first one's stored bytes and records.
    pub(super) shared: bool,
}

impl Shape {
    pub(super) fn choose(random: &mut Random) -> Self {
        let mut shift = shift(random);
        let segments = segment_count(random, shift);
        let longest = match random.below(600) {
            0 => Longest::Whole,
            1..=4 => Longest::LongChain,
            _ => Longest::Usual,
        };
        let window = segments > 0 && random.one_in(40);
        if window {
            // The window starts in the MZ header's bytes.
            shift = shift.min(6);
        }
        let resident_over_header = random.one_in(40);
        let borrow = !resident_over_header;
        Shape {
            shift,
            segments,
            longest,
            imported_over_resident: borrow && random.one_in(30),
            nonresident_over_resident: borrow && random.one_in(30),
            resident_over_header,
            resources_over_header: random.one_in(40),
            window,
            shared: segments > 1 && !window && random.one_in(25),
        }
    }
}

/// Great shifts are rare, since they make long images.
fn shift(random: &mut Random) -> u16 {
    let drawn = match random.below(1000) {
        0..=699 => random.between(0, 4),
        700..=969 => random.between(5, 9),
        970..=994 => random.between(10, 12),
        _ => random.between(13, 15),
    };
    drawn as u16
}

fn segment_count(random: &mut Random, shift: u16) -> usize {
    if shift > 9 {
        return random.between(1, 4);
    }
    match random.below(200) {
        0..=9 => 0,
        10..=59 => 1,
        60..=109 => 2,
        110..=184 => random.between(3, 6),
        185..=196 => random.between(7, 16),
        197..=198 if shift < 6 => random.between(17, 60),
        // Around the greatest numbers of a segment byte.
        _ if shift < 6 => random.between(253, 258),
        _ => 3,
    }
}
