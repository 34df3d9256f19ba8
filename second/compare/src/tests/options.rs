//! The command line, what it runs, and the last line.

use super::wrong::segment::{call, refusing, right};
use super::wrong::{ordinal, prepare};
use crate::calls::Call;
use crate::inputs::Kind;
use crate::options::Options;
use crate::run;
use tally::Tally;

fn parse(line: &str) -> Result<Options, String> {
    let words = line.split_whitespace().map(str::to_string);
    Options::parse(words, &["edges", "sound"])
}

#[test]
fn options_are_read() {
    assert_eq!(parse(""), Ok(Options::default()));
    let options = parse("--cases 5000000 --seed 7 --only sound --only-case 3");
    let expected = Options {
        cases: 5_000_000,
        seed: 7,
        only: Some("sound".to_string()),
        only_case: Some(3),
    };
    assert_eq!(options, Ok(expected));
}

#[test]
fn wrong_options_are_refused() {
    for line in ["--cases", "--cases x", "--only loud", "--unknown 1", "5"] {
        assert!(parse(line).is_err(), "{line}");
    }
}

#[test]
fn only_a_whole_run_counts_as_one() {
    let whole = |line| parse(line).map(|options| options.is_whole());
    assert_eq!(whole(""), Ok(true));
    assert_eq!(whole("--seed 7 --cases 5000000"), Ok(true));
    assert_eq!(whole("--cases 119999"), Ok(false));
    assert_eq!(whole("--only edges"), Ok(false));
    assert_eq!(whole("--only-case 0"), Ok(false));
}

#[test]
fn the_last_line() {
    let mut tally = Tally::default();
    tally.count(true);
    tally.count(true);
    assert_eq!(tally.last_line(true), "2 passed, 0 failed");
    assert!(!tally.last_line(false).contains("passed"));
    tally.count(false);
    assert_eq!(tally.last_line(true), "2 passed, 1 failed");
    assert!(!tally.last_line(false).contains("passed"));
}

/// How many checks a run with these options makes, and how many fail.
fn run(library: Box<dyn Call>, line: &str) -> (u32, u32) {
    run_all(&[library], line)
}

fn run_all(calls: &[Box<dyn Call>], line: &str) -> (u32, u32) {
    let words = line.split_whitespace().map(str::to_string);
    let options = Options::parse(words, &run::names(calls)).expect("sound options");
    let tally = run::run(calls, &options);
    (tally.passed(), tally.failed())
}

#[test]
fn a_part_is_run_alone() {
    let right = || Box::new(call(right));
    assert_eq!(run(right(), "--only special"), (1, 0));
    assert_eq!(run(right(), "--only-case 5"), (5, 0));
    assert_eq!(run(right(), "--only damaged --only-case 5"), (1, 0));
    let (edges, _) = run(right(), "--only edges");
    let (all, _) = run(right(), "--only ne_segment --cases 800");
    assert_eq!(all, edges + 5);
}

#[test]
fn a_call_is_run_alone() {
    let segment = || Box::new(call(right));
    let ordinal = || Box::new(ordinal::call(ordinal::right));
    let both: [Box<dyn Call>; 2] = [segment(), ordinal()];
    assert_eq!(run_all(&both, "--only-case 5"), (10, 0));
    assert_eq!(run_all(&both, "--only ne_ordinal --only-case 5"), (5, 0));
    let edges = |calls: &[Box<dyn Call>]| run_all(calls, "--only edges").0;
    let alone = edges(&[segment()]) + edges(&[ordinal()]);
    assert_eq!(edges(&both), alone);
}

/// Alone it is made even where a whole run leaves it out.
#[test]
fn a_case_that_is_left_out_is_run_alone() {
    let preparing = || Box::new(prepare::call(prepare::right));
    assert!(!preparing().makes(Kind::Systematic, 1));
    assert_eq!(run(preparing(), "--only systematic --only-case 1"), (1, 0));
    let made = |kind| (0..8).filter(move |request| preparing().makes(kind, *request));
    assert_eq!(made(Kind::Systematic).collect::<Vec<u64>>(), [0, 2, 4]);
    for kind in [Kind::Sound, Kind::Damaged, Kind::RandomBytes, Kind::Special] {
        assert_eq!(made(kind).count(), 8, "{kind:?}");
    }
}

#[test]
fn a_wrong_call_fails_every_kind() {
    let (passed, failed) = run(Box::new(call(refusing)), "--cases 8000");
    assert!(passed > 0);
    assert!(failed > 300);
}
