//! The answers that must be reached.

use super::wrong::segment::{call, right};
use super::wrong::{ordinal, prepare, step};
use crate::calls::{Call, Function, SegmentQuery};
use crate::seen::Seen;

const CALL: &str = "ne_segment";

/// Answers 0 to 11 but for one.
fn without(missing: Option<u32>) -> Seen {
    let mut seen = Seen::default();
    for answer in (0..=11).filter(|answer| Some(*answer) != missing) {
        seen.note(CALL, answer);
    }
    seen
}

fn segment() -> Function<SegmentQuery> {
    call(right)
}

#[test]
fn all_answers_reached() {
    let tally = without(None).check(&[&segment()]);
    assert_eq!((tally.passed(), tally.failed()), (12, 0));
}

#[test]
fn an_answer_never_reached_fails() {
    for missing in 0..=11 {
        let tally = without(Some(missing)).check(&[&segment()]);
        assert_eq!((tally.passed(), tally.failed()), (11, 1), "{missing}");
    }
    assert_eq!(Seen::default().check(&[&segment()]).failed(), 12);
}

#[test]
fn an_answer_of_another_call_fails() {
    let mut seen = without(None);
    seen.note(CALL, 12);
    let tally = seen.check(&[&segment()]);
    assert_eq!((tally.passed(), tally.failed()), (12, 1));
}

#[test]
fn the_table_has_every_answer() {
    let mut seen = without(Some(11));
    seen.note(CALL, 3);
    let table = seen.table(&[&segment()]);
    let rows: Vec<Vec<&str>> = table
        .lines()
        .map(|row| row.split_whitespace().collect())
        .collect();
    assert_eq!(rows.len(), 13);
    assert_eq!(rows[0], ["seen", CALL]);
    assert_eq!(rows[1], ["accepted", "1"]);
    assert_eq!(rows[4], ["refusal", "3", "2"]);
    assert_eq!(rows[12], ["refusal", "11", "0"]);
    assert_eq!(segment().answers().len(), 12);
}

#[test]
fn an_answer_that_a_call_cannot_give_has_no_number() {
    let ordinal = ordinal::call(ordinal::right);
    let mut seen = without(None);
    seen.note("ne_ordinal", 15);
    let table = seen.table(&[&segment(), &ordinal]);
    let row = |start: &str| {
        let mut rows = table.lines().map(|row| row.split_whitespace());
        let found = rows.find(|row| row.clone().take(2).eq(start.split(' ')));
        found.map(|row| row.skip(2).collect::<Vec<&str>>())
    };
    assert_eq!(row("refusal 8"), Some(vec!["1", "-"]));
    assert_eq!(row("refusal 7"), Some(vec!["1", "0"]));
    assert_eq!(row("refusal 15"), Some(vec!["-", "1"]));
    assert_eq!(row("refusal 16"), None);
    // The segment's 12 answers and one of the ordinal's were seen.
    let tally = seen.check(&[&segment(), &ordinal]);
    assert_eq!((tally.passed(), tally.failed()), (13, 11));
}

#[test]
fn what_others_counted_is_added() {
    let (mut seen, mut other) = (without(Some(3)), Seen::default());
    other.note(CALL, 3);
    other.note(CALL, 4);
    other.note("ne_ordinal", 15);
    seen.add(CALL, "cases", 5);
    other.add(CALL, "cases", 2);
    other.add("ne_ordinal", "cases", 1);
    seen.merge(&other);
    assert_eq!([3, 4, 5].map(|answer| seen.count(CALL, answer)), [1, 2, 1]);
    assert_eq!(seen.count("ne_ordinal", 15), 1);
    assert_eq!(seen.amounts(), "ne_ordinal: 1 cases\nne_segment: 7 cases");
}

#[test]
fn acceptance_is_no_refusal() {
    let seen = without(Some(3));
    let expected = [1, 2, 4, 5, 6, 7, 8, 9, 10, 11];
    assert!(seen.refusals().into_iter().eq(expected));
    assert!(Seen::default().refusals().is_empty());
}

/// All answers of a call, and of each kind of cases as many as are wanted, but
/// for one kind that has one case less.
fn with_amounts(call: &dyn Call, short: Option<usize>) -> Seen {
    let mut seen = Seen::default();
    for answer in call.answers() {
        seen.note(call.name(), *answer);
    }
    for (index, amount) in call.amounts().iter().enumerate() {
        let cases = amount.least - u64::from(short == Some(index));
        seen.add(call.name(), amount.what, cases - 1);
        seen.add(call.name(), amount.what, 1);
    }
    seen
}

#[test]
fn amounts_that_are_too_small_fail() {
    let (preparing, stepping) = (prepare::call(prepare::right), step::call(step::right));
    let calls: [&dyn Call; 2] = [&preparing, &stepping];
    for call in calls {
        let (answers, amounts) = (call.answers().len(), call.amounts().len());
        let checks = (answers + amounts) as u32;
        assert!(amounts > 1, "{}", call.name());
        let tally = with_amounts(call, None).check(&[call]);
        assert_eq!((tally.passed(), tally.failed()), (checks, 0));
        for short in 0..amounts {
            let tally = with_amounts(call, Some(short)).check(&[call]);
            assert_eq!((tally.passed(), tally.failed()), (checks - 1, 1));
        }
    }
}

#[test]
fn preparations_have_their_least_amounts() {
    let amounts = prepare::call(prepare::right).amounts();
    let least = |what: &str| amounts.iter().find(|amount| amount.what == what);
    for what in ["accepted preparations", "refused preparations"] {
        assert_eq!(least(what).map(|amount| amount.least), Some(50_000));
    }
}
