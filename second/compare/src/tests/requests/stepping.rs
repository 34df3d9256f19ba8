//! The records that are asked to be done by a step.

use super::{asked, input, without_header};
use crate::calls::{Held, Step, Stepping, REQUESTS};
use crate::inputs::Input;
use std::collections::BTreeSet;

/// The chain of P1.
const RECORD: [u8; 8] = [5, 0, 2, 0, 1, 0, 0x34, 0x12];
const STORED: [u8; 8] = [0x00, 0x00, 0x06, 0x00, 0xAA, 0xBB, 0xFF, 0xFF];

fn p1(request: u64) -> BTreeSet<Stepping> {
    asked::<Step>(&input("P1"), request)
}

#[test]
fn the_segments_own() {
    for request in p1(0) {
        assert_eq!(request.record, RECORD);
        assert_eq!(request.buffer.items(), STORED);
        assert_eq!(request.selectors.items().len(), 1);
    }
    let lengths: BTreeSet<usize> = p1(1).iter().map(|one| one.buffer.items().len()).collect();
    assert_eq!(lengths, BTreeSet::from([7, 9, 12]));
    assert!(p1(1).iter().all(|request| request.record == RECORD));
}

#[test]
fn other_sites() {
    let sites: BTreeSet<[u8; 2]> = p1(2)
        .iter()
        .map(|one| [one.record[2], one.record[3]])
        .collect();
    assert!(sites.is_superset(&BTreeSet::from([[0, 0], [7, 0], [9, 0], [0xFF, 0xFF]])));
}

/// Types, flags and targets of all kinds, also such as preparing refuses.
#[test]
fn made_up_records() {
    let records: Vec<[u8; 8]> = p1(4).iter().map(|request| request.record).collect();
    for kind in 0..16 {
        assert!(records.iter().any(|record| record[0] & 15 == kind));
    }
    for flags in 0..8 {
        assert!(records.iter().any(|record| record[1] & 7 == flags));
    }
    for segment in [1, 2, 255] {
        let internal = |record: &&[u8; 8]| record[1] & 3 == 0 && record[4] == segment;
        assert!(records.iter().any(|record| internal(&record)), "{segment}");
    }
}

#[test]
fn short_buffers_and_lists() {
    let lengths: BTreeSet<usize> = p1(3).iter().map(|one| one.buffer.items().len()).collect();
    assert_eq!(lengths, (0..10).collect());
    let selectors: BTreeSet<usize> = p1(5)
        .iter()
        .map(|one| one.selectors.items().len())
        .collect();
    assert_eq!(selectors, BTreeSet::from([0, 1]));
    for address in [0, 1, 3, usize::MAX] {
        let none = |request: &Stepping| request.buffer == Held::NothingAt(address);
        assert!(p1(3).iter().any(none), "{address}");
    }
}

/// Most words of a buffer are sites in it, so that chains go on.
#[test]
fn chains_that_go_on() {
    let go_on = |request: &Stepping| {
        let bytes = request.buffer.items();
        let site = |at: usize| usize::from(bytes[at]) | usize::from(bytes[at + 1]) << 8;
        bytes.len() > 40 && (0..10).step_by(2).all(|at| site(at) < bytes.len())
    };
    assert!(p1(6).iter().filter(|request| go_on(request)).count() > 30);
}

#[test]
fn random_bytes() {
    let none: Input = without_header(100);
    for request in 0..REQUESTS {
        assert!(!asked::<Step>(&none, request).is_empty());
    }
}
