//! Generated images with one or several damages.

use super::{segment_of, Input};
use builder::{damage, generate_from, Damaged, Random};

pub fn input(random: &mut Random) -> Input {
    let image = generate_from(random).image;
    of(damage(&image, random), "drawn")
}

/// The input of a damaged image; `source` says which image it was.
pub fn of(damaged: Damaged, source: &str) -> Input {
    Input {
        origin: format!("{source}, {} bytes, {damaged}", damaged.bytes.len()),
        segment: segment_of::segment_of(&damaged.changes),
        bytes: damaged.bytes,
    }
}
