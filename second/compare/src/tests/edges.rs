//! The edges written out by hand.

use super::wrong;
use crate::calls::Call;
use tally::Tally;

/// All of a call's edges.
fn whole(call: &dyn Call) -> Tally {
    let mut whole = Tally::default();
    for edges in call.edges() {
        whole.add(edges);
    }
    whole
}

#[test]
fn the_right_ones_meet_them() {
    for (name, call) in wrong::right() {
        let tally = whole(call.as_ref());
        assert!(tally.passed() > 300, "{name}");
        assert_eq!(tally.failed(), 0, "{name}");
    }
}

/// The subjects behind the first that finds a call out aren't tried.
#[test]
fn the_wrong_ones_fail_some() {
    for (name, call) in wrong::at_an_edge() {
        let failed = call.edges().find(|edges| edges.failed() > 0);
        let line = failed.map(|edges| edges.line(name));
        let found_out = line.is_some_and(|line| line.starts_with("FAILED"));
        assert!(found_out, "{}, {name}", call.name());
    }
}

#[test]
fn those_that_are_rarely_wrong_meet_them() {
    for (name, call) in wrong::rarely() {
        assert_eq!(whole(call.as_ref()).failed(), 0, "{name}");
    }
}
