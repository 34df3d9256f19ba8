//! The rounds of a thread.

use crate::work::{kinds, seeds};
use compare::inputs::{Kind, KINDS};
use std::collections::BTreeSet;

#[test]
fn no_two_threads_have_a_seed_in_common() {
    for first in [1, u64::MAX - 5] {
        let all = (0..3).flat_map(|thread| seeds(first, thread, 3).take(10));
        let different: BTreeSet<u64> = all.collect();
        let expected = (0..30).map(|number| first.wrapping_add(number)).collect();
        assert_eq!(different, expected);
    }
    assert_eq!(seeds(7, 1, 4).take(3).collect::<Vec<_>>(), [8, 12, 16]);
}

#[test]
fn every_round_has_drawn_images() {
    let drawn = [Kind::Sound, Kind::Damaged, Kind::RandomBytes];
    for round in [0, 1, 14, 16, 254] {
        assert!(kinds(round).eq(drawn), "{round}");
    }
}

#[test]
fn every_kind_comes_up() {
    let special = [Kind::Sound, Kind::Damaged, Kind::RandomBytes, Kind::Special];
    for round in [15, 31, 239] {
        assert!(kinds(round).eq(special), "{round}");
    }
    assert!(kinds(255).eq(KINDS));
    assert!(kinds(511).eq(KINDS));
}
