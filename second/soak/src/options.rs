//! The command line.

use std::num::NonZeroU64;
use std::str::FromStr;
use std::thread::available_parallelism;
use std::time::{Duration, SystemTime};

const USAGE: &str = "usage: soak [--minutes M] [--cases N] [--threads N] [--seed S]";

#[derive(Clone, Debug, PartialEq, Eq)]
pub struct Options {
    /// The first seed; those that follow are used up from it on.
    pub seed: u64,
    pub threads: NonZeroU64,
    /// It ends when so many cases are compared, or soon after.
    pub cases: Option<NonZeroU64>,
    /// It ends after this time.
    pub time: Option<Duration>,
}

impl Options {
    /// What isn't said: all cores, a new seed, and no end.
    pub fn parse(mut arguments: impl Iterator<Item = String>) -> Result<Self, String> {
        let mut options = Options {
            seed: clock(),
            threads: cores(),
            cases: None,
            time: None,
        };
        while let Some(option) = arguments.next() {
            let value = arguments.next().ok_or(USAGE)?;
            let taken = match option.as_str() {
                "--minutes" => minutes(&value).map(|time| options.time = Some(time)),
                "--cases" => number(&value).map(|cases| options.cases = Some(cases)),
                "--threads" => number(&value).map(|threads| options.threads = threads),
                "--seed" => number(&value).map(|seed| options.seed = seed),
                _ => return Err(USAGE.to_string()),
            };
            taken.ok_or_else(|| format!("{option} doesn't take {value}\n{USAGE}"))?;
        }
        Ok(options)
    }
}

fn number<T: FromStr>(text: &str) -> Option<T> {
    text.parse().ok()
}

/// Also a part of a minute, but not none.
fn minutes(text: &str) -> Option<Duration> {
    let seconds = 60.0 * number::<f64>(text)?;
    let time = Duration::try_from_secs_f64(seconds).ok()?;
    (!time.is_zero()).then_some(time)
}

fn cores() -> NonZeroU64 {
    let cores = available_parallelism().map_or(1, |cores| cores.get() as u64);
    NonZeroU64::new(cores).unwrap_or(NonZeroU64::MIN)
}

/// A seed that another run won't have: nanoseconds, since each run uses up seeds
/// that follow one another.
fn clock() -> u64 {
    let time = SystemTime::now().duration_since(SystemTime::UNIX_EPOCH);
    time.map_or(0, |time| time.as_nanos() as u64)
}
