//! Random streams that depend on a seed and a few numbers alone.

use builder::Random;

/// The stream of these numbers under this seed. A case gets one of its own, so
/// that it can be made again without those before it.
pub fn stream(seed: u64, numbers: &[u64]) -> Random {
    let first = Random::new(seed);
    numbers.iter().fold(first, |mut random, number| {
        Random::new(random.next_u64() ^ number)
    })
}

/// A number for a name, for use in [`stream`].
pub fn number_of(name: &str) -> u64 {
    name.bytes().fold(0, |number, byte| {
        Random::new(number ^ u64::from(byte)).next_u64()
    })
}
