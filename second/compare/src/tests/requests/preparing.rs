//! The segments that are asked to be prepared.

use super::{asked, input, without_header};
use crate::calls::{Held, Prepare, Preparing, REQUESTS};
use crate::inputs::Input;
use std::collections::BTreeSet;

/// One segment of 8 bytes with one record.
fn p1() -> Input {
    input("P1")
}

fn lengths(request: &Preparing) -> [usize; 4] {
    [
        request.selectors.items().len(),
        request.answers.items().len(),
        request.output.items().len(),
        request.marks.items().len(),
    ]
}

/// The lengths of all requests of this number.
fn all_lengths(input: &Input, request: u64) -> BTreeSet<[usize; 4]> {
    asked::<Prepare>(input, request)
        .iter()
        .map(lengths)
        .collect()
}

#[test]
fn exact_lists() {
    for request in [0, 1] {
        let exact = BTreeSet::from([[1, 1, 8, 8]]);
        assert_eq!(all_lengths(&p1(), request), exact, "{request}");
    }
}

#[test]
fn one_list_short_by_one() {
    let short = BTreeSet::from([[0, 1, 8, 8], [1, 0, 8, 8], [1, 1, 7, 8], [1, 1, 8, 7]]);
    assert_eq!(all_lengths(&p1(), 2), short);
}

#[test]
fn longer_lists() {
    for request in [3, 4, 5] {
        let lists = all_lengths(&p1(), request);
        assert!(lists.contains(&[1, 1, 8, 8]), "{request}");
        assert!(lists.iter().all(|list| list[0] >= 1 && list[3] >= 8));
        assert!(lists.iter().any(|list| list[2] > 8 && list[3] > list[2]));
    }
}

#[test]
fn numbers() {
    let numbers = |input: &Input, request| -> BTreeSet<u32> {
        let all = asked::<Prepare>(input, request);
        all.iter().map(|request| request.number).collect()
    };
    let mut image = input("P10");
    assert_eq!(numbers(&image, 0), BTreeSet::from([1, 2]));
    image.segment = Some(2);
    for request in [0, 2, 4, 5] {
        assert_eq!(numbers(&image, request), BTreeSet::from([2]));
    }
    for request in [3, 7] {
        assert_eq!(numbers(&image, request), BTreeSet::from([1, 2]));
    }
    let outside = numbers(&image, 6);
    assert!(outside.is_superset(&BTreeSet::from([0, 3, 65_537, u32::MAX])));
    assert!(outside.is_disjoint(&BTreeSet::from([1, 2])));
}

/// Nothing may stand at null or at odd addresses; what there is differs from 0.
#[test]
fn lent_memory() {
    let p12 = asked::<Prepare>(&input("P12"), 0);
    for address in [0, 1, 3, usize::MAX] {
        let none = |request: &Preparing| request.marks == Held::NothingAt(address);
        assert!(p12.iter().any(none), "{address}");
        let none = |request: &Preparing| request.answers == Held::NothingAt(address);
        assert!(p12.iter().any(none), "{address}");
    }
    for request in asked::<Prepare>(&p1(), 3) {
        let bytes = [request.output.items(), request.marks.items()].concat();
        assert!(bytes.iter().all(|byte| *byte != 0));
    }
}

/// A segment that isn't stated has some lists all the same.
#[test]
fn random_bytes() {
    for length in [0, 63, 100] {
        for request in 0..REQUESTS {
            assert!(!asked::<Prepare>(&without_header(length), request).is_empty());
        }
        assert!(all_lengths(&without_header(length), 0).contains(&[0, 1, 8, 8]));
    }
}
