//! The images that the calls are asked about.

mod damaged;
mod random_bytes;
mod segment_of;
mod sound;
mod special;
mod systematic;

use crate::streams::stream;
use builder::Random;
use std::ops::Range;

/// An image and how it was made.
#[derive(Clone, Debug)]
pub struct Input {
    pub bytes: Vec<u8>,
    pub origin: String,
    /// The number of a segment that is worth asking for.
    pub segment: Option<u32>,
}

/// A kind of input. The first three are drawn from the seed; the others are the
/// same in every run.
#[derive(Clone, Copy, Debug, PartialEq, Eq)]
pub enum Kind {
    Sound,
    Damaged,
    RandomBytes,
    Systematic,
    Special,
}

pub const KINDS: [Kind; 5] = [
    Kind::Sound,
    Kind::Damaged,
    Kind::RandomBytes,
    Kind::Systematic,
    Kind::Special,
];

impl Kind {
    pub fn name(self) -> &'static str {
        match self {
            Kind::Sound => "sound",
            Kind::Damaged => "damaged",
            Kind::RandomBytes => "random-bytes",
            Kind::Systematic => "systematic",
            Kind::Special => "special",
        }
    }

    /// How many images it has when `drawn` are drawn in all. Those that are the
    /// same in every run are all taken.
    pub fn images(self, drawn: u64) -> u64 {
        match self {
            Kind::Sound => drawn / 4,
            Kind::Damaged => drawn - drawn / 4 - drawn / 8,
            Kind::RandomBytes => drawn / 8,
            Kind::Systematic | Kind::Special => u64::MAX,
        }
    }

    /// The images with these numbers, or as many of them as there are.
    pub fn inputs(self, seed: u64, images: Range<u64>) -> Box<dyn Iterator<Item = Input>> {
        let make: fn(&mut Random) -> Input = match self {
            Kind::Sound => sound::input,
            Kind::Damaged => damaged::input,
            Kind::RandomBytes => random_bytes::input,
            Kind::Systematic => return cut(systematic::inputs(), images),
            Kind::Special => return cut(special::inputs(), images),
        };
        Box::new(images.map(move |image| make(&mut stream(seed, &[self as u64, image]))))
    }
}

fn cut(
    inputs: impl Iterator<Item = Input> + 'static,
    images: Range<u64>,
) -> Box<dyn Iterator<Item = Input>> {
    let start = usize::try_from(images.start).unwrap_or(usize::MAX);
    let count = usize::try_from(images.end - images.start).unwrap_or(usize::MAX);
    Box::new(inputs.skip(start).take(count))
}
