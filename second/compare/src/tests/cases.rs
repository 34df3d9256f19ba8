//! The generated cases.

use super::noticed::Noticed;
use super::wrong;
use super::wrong::segment::{call, rare_start, right};
use crate::calls::Call;
use crate::cases::each_case;
use crate::group;
use crate::inputs::{Kind, KINDS};
use crate::options::Options;
use crate::seen::Seen;
use std::ops::ControlFlow;
use tally::Tally;

fn compare(kind: Kind, call: &dyn Call, options: &Options) -> Tally {
    group::compare(kind, &[call], options, &mut Seen::default())
}

fn options() -> Options {
    Options {
        cases: 40_000,
        ..Options::default()
    }
}

#[test]
fn the_right_ones_have_no_differences() {
    let right = wrong::right();
    let calls: Vec<&dyn Call> = right.iter().map(|(_, call)| call.as_ref()).collect();
    for kind in KINDS {
        let tally = group::compare(kind, &calls, &options(), &mut Seen::default());
        let all = calls.len() as u32;
        assert_eq!((tally.passed(), tally.failed()), (all, 0), "{kind:?}");
    }
}

#[test]
fn every_wrong_one_is_found() {
    let all = wrong::rarely().into_iter().chain(wrong::at_an_edge());
    let all = all.chain(wrong::in_some_order());
    let mut hidden: Vec<_> = all.map(|(name, call)| (name, Noticed::new(call))).collect();
    // The images of a kind are made once for all calls that are still hidden.
    for kind in [Kind::Sound, Kind::Damaged, Kind::RandomBytes, Kind::Special] {
        let calls: Vec<&dyn Call> = hidden.iter().map(|(_, call)| call as &dyn Call).collect();
        group::compare(kind, &calls, &options(), &mut Seen::default());
        hidden.retain(|(_, call)| !call.differed());
    }
    let name = |(name, call): &(&str, Noticed)| format!("{}, {name}", call.name());
    let names: Vec<String> = hidden.iter().map(name).collect();
    assert!(names.is_empty(), "{names:?}");
}

#[test]
fn a_kind_without_cases_fails() {
    let none = Options {
        cases: 0,
        ..Options::default()
    };
    assert_eq!(compare(Kind::Sound, &call(right), &none).failed(), 1);
    let past_the_last = Options {
        only_case: Some(1 << 40),
        ..Options::default()
    };
    let tally = compare(Kind::Special, &call(right), &past_the_last);
    assert_eq!(tally.failed(), 1);
}

#[test]
fn a_panic_counts_as_a_difference() {
    let tally = compare(Kind::Special, &call(|_, _| panic!("on purpose")), &one(3));
    assert_eq!((tally.passed(), tally.failed()), (0, 1));
}

fn one(case: u64) -> Options {
    Options {
        only_case: Some(case),
        ..options()
    }
}

#[test]
fn an_image_depends_on_its_number_alone() {
    for kind in KINDS {
        let all: Vec<_> = kind.inputs(9, 0..40).collect();
        let some: Vec<_> = kind.inputs(9, 20..40).collect();
        assert_eq!((all.len(), some.len()), (40, 20));
        for (first, again) in all[20..].iter().zip(&some) {
            assert_eq!(first.bytes, again.bytes, "{kind:?}");
            assert_eq!(first.origin, again.origin);
        }
    }
}

#[test]
fn cases_have_their_numbers_and_can_be_broken_off() {
    let mut numbers = Vec::new();
    let ended = each_case(Kind::Sound, 9, 2..9, 3..5, &mut |case| {
        numbers.push(case.number);
        match numbers.len() {
            5 => ControlFlow::Break(()),
            _ => ControlFlow::Continue(()),
        }
    });
    assert_eq!(numbers, [19, 20, 27, 28, 35]);
    assert!(ended.is_break());
}

#[test]
fn a_differing_case_differs_alone_too() {
    let wrong = call(rare_start);
    let differs = |case: &u64| compare(Kind::Sound, &wrong, &one(*case)).failed() == 1;
    let cases: Vec<u64> = (0..2_000).filter(differs).collect();
    assert!(!cases.is_empty());
    assert!(cases.iter().all(differs));
    let tally = compare(Kind::Sound, &call(right), &one(cases[0]));
    assert_eq!((tally.passed(), tally.failed()), (1, 0));
}
