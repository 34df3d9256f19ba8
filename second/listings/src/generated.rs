//! Generated sound images, damaged ones, and those at the edges of the rules.

use crate::images::Image;
use builder::{damage, generate, specials, Random};

/// Seeds of sound images.
const SOUND: u64 = 150;
/// Seeds of damaged ones.
const DAMAGED: u64 = 300;

pub fn images() -> impl Iterator<Item = Image> {
    drawn().chain(special())
}

/// Those of a seed.
pub fn drawn() -> impl Iterator<Item = Image> {
    (0..SOUND).map(sound).chain((0..DAMAGED).map(damaged))
}

fn sound(seed: u64) -> Image {
    Image::new(format!("sound, seed {seed}"), generate(seed).image.bytes)
}

fn damaged(seed: u64) -> Image {
    let damaged = damage(&generate(seed).image, &mut Random::new(seed));
    Image::new(format!("damaged, seed {seed}: {damaged}"), damaged.bytes)
}

/// Some are of 16 MB.
fn special() -> impl Iterator<Item = Image> {
    specials().into_iter().map(|special| {
        let bytes = special.make().image.bytes;
        Image::new(format!("special, {:?}", special.name), bytes)
    })
}
