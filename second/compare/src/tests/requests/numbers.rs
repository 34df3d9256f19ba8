//! The numbers that are asked for.

use super::{asked, input, without_header};
use crate::calls::{
    ModuleQuery, NameByNumber, OrdinalQuery, ResourceByNumber, SegmentQuery, REQUESTS,
};
use std::collections::BTreeSet;

/// P10 has ordinal 1, the null ones 2 and 3, and the movable 4.
#[test]
fn ordinals_of_p10() {
    let asked = |request| asked::<OrdinalQuery>(&input("P10"), request);
    for (request, expected) in [(0, 0), (1, 1), (2, 4), (3, 5)] {
        assert_eq!(asked(request), BTreeSet::from([expected]));
    }
    assert_eq!(asked(4), BTreeSet::from([2, 3]));
    assert_eq!(asked(5), BTreeSet::from([1, 2, 3, 4]));
    assert!(asked(6).is_superset(&BTreeSet::from([65_537, 65_540, 0xFFFF_FFFF])));
    assert!(asked(7).is_superset(&BTreeSet::from([0, 1, 0x8000_0000, 0xFFFF_FFFF])));
    assert_eq!(REQUESTS, 8);
}

#[test]
fn ordinals_of_an_empty_table() {
    let asked = |request| asked::<OrdinalQuery>(&input("P11, byte count 0"), request);
    for (request, expected) in [(2, 0), (3, 1), (4, 1), (5, 1)] {
        assert_eq!(asked(request), BTreeSet::from([expected]));
    }
}

/// The bundle past the end of the table is asked for as well.
#[test]
fn ordinals_of_a_table_cut_short() {
    let image = input("a missing segment in a bundle cut short");
    assert_eq!(asked::<OrdinalQuery>(&image, 2), BTreeSet::from([2]));
    assert_eq!(asked::<OrdinalQuery>(&image, 5), BTreeSet::from([1, 2]));
}

#[test]
fn segments_of_p10() {
    let mut image = input("P10");
    for (request, expected) in [(0, 0), (1, 1), (2, 2), (3, 3)] {
        assert_eq!(
            asked::<SegmentQuery>(&image, request),
            BTreeSet::from([expected])
        );
    }
    assert_eq!(asked::<SegmentQuery>(&image, 5), BTreeSet::from([1, 2]));
    image.segment = Some(2);
    assert_eq!(asked::<SegmentQuery>(&image, 4), BTreeSet::from([2]));
}

/// Three resident names, of which the first is the module's, and three others.
#[test]
fn names_of_two_lists() {
    let asked =
        |request| asked::<NameByNumber>(&input("Resources ends the image, less 0"), request);
    for (request, expected) in [(0, 0), (1, 1), (2, 6), (3, 7), (4, 4)] {
        assert_eq!(asked(request), BTreeSet::from([expected]));
    }
    assert_eq!(asked(5), (1..=6).collect());
}

#[test]
fn modules_and_resources() {
    let image = input("Resources ends the image, less 0");
    for (request, expected) in [(0, 0), (1, 1), (2, 2), (3, 3)] {
        assert_eq!(
            asked::<ModuleQuery>(&image, request),
            BTreeSet::from([expected])
        );
        assert_eq!(
            asked::<ResourceByNumber>(&image, request),
            BTreeSet::from([expected])
        );
    }
    for request in [4, 5] {
        assert_eq!(
            asked::<ModuleQuery>(&image, request),
            BTreeSet::from([1, 2])
        );
        assert_eq!(
            asked::<ResourceByNumber>(&image, request),
            BTreeSet::from([1, 2])
        );
    }
}

/// Nothing is stated by bytes that have no header.
#[test]
fn numbers_of_random_bytes() {
    for length in [0, 1, 63, 64, 100] {
        let image = without_header(length);
        let none = BTreeSet::from([0]);
        assert_eq!(asked::<SegmentQuery>(&image, 2), none);
        assert_eq!(asked::<OrdinalQuery>(&image, 2), none);
        assert_eq!(asked::<NameByNumber>(&image, 2), none);
        assert_eq!(asked::<ModuleQuery>(&image, 2), none);
        assert_eq!(asked::<ResourceByNumber>(&image, 2), none);
    }
}
