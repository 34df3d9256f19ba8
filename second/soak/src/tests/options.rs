//! The command line.

use crate::options::Options;
use std::num::NonZeroU64;
use std::time::Duration;

fn parse(line: &str) -> Result<Options, String> {
    Options::parse(line.split_whitespace().map(str::to_string))
}

#[test]
fn options_are_read() {
    let options = parse("--minutes 1.5 --cases 700 --threads 3 --seed 18446744073709551615");
    let expected = Options {
        seed: u64::MAX,
        threads: NonZeroU64::new(3).expect("not 0"),
        cases: NonZeroU64::new(700),
        time: Some(Duration::from_secs(90)),
    };
    assert_eq!(options, Ok(expected));
}

#[test]
fn nothing_said_means_all_cores_and_a_new_seed() {
    let (one, other) = (
        parse("").expect("no options"),
        parse("").expect("no options"),
    );
    let cores = std::thread::available_parallelism().map_or(1, |cores| cores.get());
    assert_eq!(one.threads.get(), cores as u64);
    assert_eq!((one.cases, one.time), (None, None));
    assert_ne!(one.seed, other.seed);
}

#[test]
fn wrong_options_are_refused() {
    for line in [
        "5",
        "--unknown 1",
        "--minutes",
        "--minutes 0",
        "--minutes -1",
        "--minutes NaN",
        "--minutes inf",
        "--minutes 1e300",
        "--minutes soon",
        "--cases 0",
        "--cases 1.5",
        "--threads 0",
        "--threads -1",
        "--seed",
        "--seed 18446744073709551616",
    ] {
        let message = parse(line).expect_err(line);
        assert!(message.contains("usage: soak"), "{line}: {message}");
    }
}
