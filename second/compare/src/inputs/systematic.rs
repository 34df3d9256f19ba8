//! Every field damage and every cut of a few fixed images.

use super::damaged::of;
use super::Input;
use builder::{every_field_damage, every_truncation, generate, Image};

/// The seeds that are tried.
const SEEDS: u64 = 60;
/// Longer images have more fields than are worth the time.
const LONGEST: usize = 1_500;

pub fn inputs() -> impl Iterator<Item = Input> {
    let cases = (0..SEEDS).map(|seed| (seed, generate(seed).image));
    cases
        .filter(|(_, image)| image.bytes.len() <= LONGEST)
        .flat_map(|(seed, image)| of_image(seed, &image))
}

fn of_image(seed: u64, image: &Image) -> Vec<Input> {
    let source = format!("seed {seed}");
    every_field_damage(image)
        .chain(every_truncation(image))
        .map(|damaged| of(damaged, &source))
        .collect()
}
