//! The slowest image of each query.

use crate::library;
use crate::measure::{median, rounds};
use bench::queries::{all, Ask, LONGEST};
use std::collections::BTreeMap;
use std::hint::black_box;
use std::time::{Duration, Instant};

/// How long each query is measured, unless the fewest rounds take longer.
const ENOUGH: Duration = Duration::from_millis(100);
/// Room for the longest listing.
const TEXT: usize = 1 << 21;

struct Slowest {
    name: String,
    bytes: usize,
    seconds: f64,
}

/// Prints a line for each query.
pub fn table() {
    let mut slowest: BTreeMap<&str, Slowest> = BTreeMap::new();
    let mut text = vec![0; TEXT];
    for subject in all(LONGEST) {
        for ask in &subject.asks {
            let seconds = seconds(ask, &subject.image, &mut text);
            let held = slowest.get(ask.call()).map_or(0.0, |held| held.seconds);
            if seconds > held {
                let (name, bytes) = (subject.name.clone(), subject.image.len());
                let found = Slowest {
                    name,
                    bytes,
                    seconds,
                };
                slowest.insert(ask.call(), found);
            }
        }
    }
    println!("The slowest image of each query\n");
    println!("| Query | Image | Bytes | ms | MB/s |");
    println!("|---|---|---|---|---|");
    for (
        call,
        Slowest {
            name,
            bytes,
            seconds,
        },
    ) in slowest
    {
        let (milliseconds, rate) = (1e3 * seconds, bytes as f64 / 1e6 / seconds);
        println!("| {call} | {name} | {bytes} | {milliseconds:.3} | {rate:.0} |");
    }
}

/// The median time of a query, once it is known that it is answered as by the
/// second program.
fn seconds(ask: &Ask, image: &[u8], text: &mut [u8]) -> f64 {
    let answer = library::ask(ask, image, text);
    assert_eq!(answer, ask.second(image), "{ask:?}");
    let mut seen = [Vec::new()];
    rounds(&mut seen, ENOUGH, |_| {
        let start = Instant::now();
        black_box(library::ask(black_box(ask), image, text));
        start.elapsed().as_secs_f64()
    });
    let [times] = seen;
    median(times)
}
