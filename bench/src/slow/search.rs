//! The worst segment of a family, by trying.

use crate::buffers::Buffers;
use crate::measure::time;
use crate::programs::{LIBRARY, PROGRAMS};
use bench::inputs::Input;
use bench::slowest::{Candidate, Family, Types, Variant};
use std::time::Duration;

/// How often a candidate is tried, unless it takes long.
const TRIES: usize = 5;
const LONG: Duration = Duration::from_millis(50);

/// The worst variant with the family's first types, and the worst types of that
/// variant.
pub fn worst(family: &Family) -> (&Variant, Types) {
    let first = family.types[0];
    let variant = greatest(&family.variants, |variant| ratio(&variant.candidate(first)));
    let types = greatest(&family.types, |types| ratio(&variant.candidate(*types)));
    (variant, *types)
}

/// The types with which the slow segment takes longest.
pub fn longest(variant: &Variant, types: &[Types]) -> Types {
    *greatest(types, |types| shortest(&variant.candidate(*types).slow))
}

fn greatest<T>(items: &[T], value: impl Fn(&T) -> f64) -> &T {
    let values: Vec<f64> = items.iter().map(value).collect();
    let order = |one: &usize, other: &usize| values[*one].total_cmp(&values[*other]);
    let greatest = (0..items.len()).max_by(order);
    &items[greatest.expect("a family isn't empty")]
}

fn ratio(candidate: &Candidate) -> f64 {
    shortest(&candidate.slow) / shortest(&candidate.direct)
}

/// The shortest of a few calls, which other load disturbs least.
fn shortest(input: &Input) -> f64 {
    let mut buffers = Buffers::new(input);
    let mut call = || time(PROGRAMS[LIBRARY], input, &mut buffers, 1);
    let first = call();
    match first > LONG.as_secs_f64() {
        true => first,
        false => (1..TRIES).fold(first, |shortest, _| shortest.min(call())),
    }
}
