//! Whole runs.

use crate::options::Options;
use crate::progress::Shown;
use crate::run::{run, Calls, Ending};
use compare::calls::{Call, Function, Query, SegmentQuery};
use compare::library::Lent;
use compare::results::SegmentResult;
use std::io::{self, Write};
use std::sync::atomic::AtomicBool;

/// What a run with these calls ends with, and what it says.
fn ran(calls: Calls, line: &str) -> (Ending, String) {
    let options = Options::parse(line.split_whitespace().map(str::to_string));
    let mut out = Vec::new();
    let ending = run(
        calls,
        &options.expect("sound options"),
        &AtomicBool::new(false),
        Shown::by_lines(&mut out),
    );
    let said = String::from_utf8(out).expect("text");
    (ending.expect("room"), said)
}

/// The segment query alone, by this function.
fn segment(answer: fn(&[u8], &u32) -> SegmentResult) -> Vec<Box<dyn Call>> {
    vec![Box::new(Function::<SegmentQuery> { answer })]
}

fn right(image: &[u8], number: &u32) -> SegmentResult {
    SegmentQuery::exported(Lent::These(image), number)
}

/// Wrong where a segment has exactly one record.
fn rarely_wrong(image: &[u8], number: &u32) -> SegmentResult {
    let mut result = right(image, number);
    result.start ^= u32::from(result.records == 1);
    result
}

#[test]
fn the_last_case_ends_it() {
    let (ending, said) = ran(|| segment(right), "--threads 1 --cases 1000 --seed 3");
    assert_eq!((ending, ending.status()), (Ending::AllEqual, 0));
    assert!(said.starts_with("soak --seed 3 --threads 1\n"), "{said}");
    assert!(said.contains("  1,000 cases  "), "{said}");
    assert!(said.ends_with(" of 11\nno difference\n"), "{said}");
}

/// With more threads each may be at a case when the last one is reached.
#[test]
fn all_threads_are_counted() {
    let (ending, said) = ran(|| segment(right), "--threads 3 --cases 5000");
    assert_eq!(ending, Ending::AllEqual);
    let counted = sum_of_the_table(&said);
    assert!((5_000..5_003).contains(&counted), "{said}");
}

/// The cases of a table with one call.
fn sum_of_the_table(said: &str) -> u64 {
    let rows = said.lines().skip(2).take(12);
    let counts = rows.map(|row| row.split_whitespace().last());
    counts
        .map(|count| count.and_then(|count| count.parse::<u64>().ok()))
        .sum::<Option<u64>>()
        .expect("a count in each row")
}

#[test]
fn a_run_can_be_repeated() {
    let totals = |line: &str| {
        let (_, said) = ran(compare::calls::all, line);
        let (table, _) = said.split_once("00:00:").expect("progress");
        table.to_string()
    };
    let line = "--threads 1 --cases 20000 --seed 5";
    assert_eq!(totals(line), totals(line));
    assert_ne!(totals(line), totals("--threads 1 --cases 20000 --seed 6"));
}

#[test]
fn time_ends_it() {
    let (ending, said) = ran(|| segment(right), "--threads 1 --minutes 0.001");
    assert_eq!(ending, Ending::AllEqual);
    assert!(said.ends_with("no difference\n"), "{said}");
}

#[test]
fn a_difference_ends_it() {
    let (ending, said) = ran(|| segment(rarely_wrong), "--threads 2 --seed 40");
    assert_eq!((ending, ending.status()), (Ending::Differed, 1));
    assert_eq!(said.matches("DIFFERENCE in ne_segment").count(), 1);
    assert!(said.ends_with("\na DIFFERENCE, see above\n"), "{said}");
    let again = said.lines().find(|line| line.contains("again: compare"));
    let again = again.expect("how to see it again");
    let seed = [40, 41]
        .iter()
        .any(|seed| again.contains(&format!("--seed {seed} ")));
    assert!(seed && again.contains(" --only-case "), "{again}");
}

#[test]
fn a_panic_ends_it() {
    let (ending, said) = ran(|| segment(|_, _| panic!("on purpose")), "--threads 2");
    assert_eq!(ending, Ending::Differed);
    assert_eq!(said.matches("it panicked").count(), 1);
}

/// Takes one line.
#[derive(Default)]
struct OneLine {
    ended: bool,
}

impl Write for OneLine {
    fn write(&mut self, bytes: &[u8]) -> io::Result<usize> {
        if self.ended {
            return Err(io::ErrorKind::BrokenPipe.into());
        }
        self.ended = bytes.contains(&b'\n');
        Ok(bytes.len())
    }

    fn flush(&mut self) -> io::Result<()> {
        Ok(())
    }
}

/// It runs for the second after which progress is first shown.
#[test]
fn output_that_is_closed_ends_it() {
    let options = Options::parse(["--threads", "2"].map(str::to_string).into_iter());
    let ended = run(
        || segment(right),
        &options.expect("sound options"),
        &AtomicBool::new(false),
        Shown::in_place(OneLine::default()),
    );
    let error = ended.expect_err("it can't be shown");
    assert_eq!(error.kind(), io::ErrorKind::BrokenPipe);
}
