//! The slowest segment of each family, beside direct ones.

use super::search::worst;
use crate::buffers::Buffers;
use crate::measure::{median, outcome, rounds, time};
use crate::programs::{LIBRARY, PROGRAMS, SECOND};
use bench::answer::Answer;
use bench::inputs::Input;
use bench::slowest::{Candidate, Family};
use std::time::Duration;

/// How long a family is measured, unless the fewest rounds take longer.
const ENOUGH: Duration = Duration::from_secs(1);
/// So many times the time with direct targets is the most that a segment may
/// take. No proof says so: an index of the entry table that is never filled
/// keeps its promise too, and then records by ordinal take over a thousand times
/// as long.
const TARGET: f64 = 4.0;

/// The worst segment of a family.
pub struct Found {
    pub family: &'static str,
    pub variant: String,
    /// Of preparing it.
    pub seconds: f64,
    /// By that with direct targets.
    by_direct: f64,
}

/// Prints a line for each family, and whether the target is met.
pub fn table(families: &[Family]) -> Vec<Found> {
    println!("The slowest segment of each family, by the same sites and types with direct targets");
    println!("(bare: and with no tables that these don't need)\n");
    println!("| Family | Worst | Records | Sites | by direct | by bare | ns a site or record |");
    println!("|---|---|---|---|---|---|---|");
    let found: Vec<Found> = families.iter().map(line).collect();
    let most = found
        .iter()
        .map(|found| found.by_direct)
        .fold(0.0, f64::max);
    let verdict = if most <= TARGET { "met" } else { "MISSED" };
    println!("\nAt most {most:.2} times by direct: the target of {TARGET} is {verdict}.");
    found
}

fn line(family: &Family) -> Found {
    let (variant, types) = worst(family);
    let candidate = variant.candidate(types);
    let [slow, direct, bare] = times(&candidate);
    let (records, sites) = (candidate.slow.records, candidate.sites);
    let nanoseconds = 1e9 * slow / records.max(sites) as f64;
    println!(
        "| {} | {}; {types} | {records} | {sites} | {:.2} | {:.2} | {nanoseconds:.1} |",
        family.name,
        variant.name,
        slow / direct,
        slow / bare
    );
    Found {
        family: family.name,
        variant: variant.name.clone(),
        seconds: slow,
        by_direct: slow / direct,
    }
}

/// The median time of each.
fn times(candidate: &Candidate) -> [f64; 3] {
    agree(&candidate.slow, candidate.sites);
    let inputs = [&candidate.slow, &candidate.direct, &candidate.bare];
    let mut buffers = inputs.map(Buffers::new);
    let mut seen = inputs.map(|_| Vec::new());
    rounds(&mut seen, ENOUGH, |index| {
        time(PROGRAMS[LIBRARY], inputs[index], &mut buffers[index], 1)
    });
    seen.map(median)
}

/// Asserts that the library does what the second program does, with so many
/// sites. The careful one would take too long.
fn agree(input: &Input, sites: usize) {
    let [library, second] = [LIBRARY, SECOND].map(|program| outcome(program, input));
    assert_eq!(library.0, Answer::accepted(sites as u32), "{}", input.name);
    assert!(library == second, "{}: not as the second", input.name);
}
