//! How far a run is, and how that is shown.

use std::collections::BTreeSet;
use std::fmt;
use std::io::{self, Write};
use std::time::Duration;

/// Behind the start of a line this clears what stood there.
const CLEAR: &str = "\r\x1b[K";

pub struct Progress {
    pub time: Duration,
    pub cases: u64,
    /// Those that were seen.
    pub refusals: BTreeSet<u32>,
    /// How many there are.
    pub all_refusals: usize,
}

impl fmt::Display for Progress {
    fn fmt(&self, f: &mut fmt::Formatter<'_>) -> fmt::Result {
        let rate = self.cases as f64 / self.time.as_secs_f64().max(0.001);
        let (cases, rate) = (grouped(self.cases), grouped(rate as u64));
        let (seen, all) = (ranges(&self.refusals), self.all_refusals);
        let time = clock(self.time);
        write!(
            f,
            "{time}  {cases} cases  {rate}/s  refusals seen: {seen} of {all}"
        )
    }
}

/// Hours, minutes and seconds.
fn clock(time: Duration) -> String {
    let seconds = time.as_secs();
    let (hours, minutes) = (seconds / 3600, seconds / 60 % 60);
    format!("{hours:02}:{minutes:02}:{:02}", seconds % 60)
}

/// A number with a comma between each three digits.
fn grouped(number: u64) -> String {
    match number {
        0..=999 => number.to_string(),
        _ => format!("{},{:03}", grouped(number / 1000), number % 1000),
    }
}

/// Numbers that follow one another as one range.
fn ranges(numbers: &BTreeSet<u32>) -> String {
    let missing = |number: u32| !numbers.contains(&number);
    let firsts = numbers.iter().filter(|number| missing(**number - 1));
    let lasts = numbers.iter().filter(|number| missing(**number + 1));
    let range = |(first, last): (&u32, &u32)| match first == last {
        true => first.to_string(),
        false => format!("{first}-{last}"),
    };
    match numbers.is_empty() {
        true => "none".to_string(),
        false => firsts.zip(lasts).map(range).collect::<Vec<_>>().join(", "),
    }
}

/// Where progress is shown.
pub struct Shown<W> {
    out: W,
    in_place: bool,
    every: Duration,
    /// When it is shown next.
    due: Duration,
}

impl<W: Write> Shown<W> {
    /// On a terminal: one line, written over and over.
    pub fn in_place(out: W) -> Self {
        Shown::new(out, true, Duration::from_secs(1))
    }

    /// Elsewhere: a line now and then.
    pub fn by_lines(out: W) -> Self {
        Shown::new(out, false, Duration::from_secs(30))
    }

    fn new(out: W, in_place: bool, every: Duration) -> Self {
        Shown {
            out,
            in_place,
            every,
            due: every,
        }
    }

    /// Shows the progress if it is time to.
    pub fn show(&mut self, progress: &Progress) -> io::Result<()> {
        if progress.time < self.due {
            return Ok(());
        }
        self.due = progress.time + self.every;
        match self.in_place {
            true => write!(self.out, "{CLEAR}{progress}")?,
            false => writeln!(self.out, "{progress}")?,
        }
        self.out.flush()
    }

    /// Writes other lines; the progress that stands in their place goes.
    pub fn say(&mut self, lines: &str) -> io::Result<()> {
        let clear = if self.in_place { CLEAR } else { "" };
        writeln!(self.out, "{clear}{lines}")?;
        self.out.flush()
    }
}
