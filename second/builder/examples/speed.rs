//! Measures how many images are generated and damaged in a second.

use builder::{damage, generate, Random};
use std::time::Instant;

const SEEDS: u64 = 50_000;

fn main() {
    let start = Instant::now();
    let bytes: usize = (0..SEEDS)
        .map(|seed| generate(seed).image.bytes.len())
        .sum();
    report("generated", start, bytes);

    let start = Instant::now();
    let mut random = Random::new(1);
    let damaged = (0..SEEDS).map(|seed| damage(&generate(seed).image, &mut random));
    let bytes: usize = damaged.map(|one| one.bytes.len()).sum();
    report("generated and damaged", start, bytes);

    let image = generate(3).image;
    let start = Instant::now();
    let bytes: usize = (0..SEEDS)
        .map(|_| damage(&image, &mut random).bytes.len())
        .sum();
    report("damaged", start, bytes);
}

fn report(what: &str, start: Instant, bytes: usize) {
    let rate = SEEDS as f64 / start.elapsed().as_secs_f64();
    let mean = bytes / SEEDS as usize;
    println!("{what}: {rate:.0} a second, {mean} bytes on average");
}
