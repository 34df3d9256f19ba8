//! The candidates are accepted, with as many sites as they are said to have.

use super::{agree, outcome, Seen};
use crate::inputs::Input;
use crate::second;
use crate::slowest::entries::{Order, Table, FIXED, MOVABLE, NULL};
use crate::slowest::{families, Candidate, Size};

/// So small that the careful program, which goes through the bundles for every
/// record, is quick.
const SMALL: Size = Size {
    stored: 420,
    table: 300,
    segments: 300,
};

fn accepted(input: &Input, sites: usize) {
    let mut seen = Seen::new();
    let room = (input.allocation, input.stored.len());
    let request = input.request(&input.image);
    agree(&request, room, &mut seen, &|| input.name.clone());
    assert_eq!(seen.get(&0), Some(&1), "{}", input.name);
    let answer = outcome(second::prepare, &request, room).0;
    assert_eq!(answer.sites as usize, sites, "{}", input.name);
}

#[test]
fn all_are_accepted() {
    for family in families(SMALL) {
        for variant in &family.variants {
            for &types in &family.types {
                let candidate = variant.candidate(types);
                let direct_sites = candidate.sites.max(candidate.direct.records);
                assert!(direct_sites > 0, "{}", candidate.direct.name);
                accepted(&candidate.slow, candidate.sites);
                accepted(&candidate.direct, direct_sites);
                accepted(&candidate.bare, direct_sites);
                same_types_and_sites(&candidate);
            }
        }
    }
}

/// Of all records but for their targets. A chain may start elsewhere.
fn same_types_and_sites(candidate: &Candidate) {
    let [slow, direct, bare] = [&candidate.slow, &candidate.direct, &candidate.bare].map(records);
    assert_eq!((slow.len(), direct.len()), (direct.len(), bare.len()));
    assert!(slow.len() == 1 || (slow == direct && direct == bare));
}

/// Type, flags without the kind of target, and site of each record.
fn records(input: &Input) -> Vec<[u8; 4]> {
    let records = input.image[input.stored.end + 2..].chunks_exact(8);
    let of = |record: &[u8]| [record[0], record[1] & !3, record[2], record[3]];
    records.map(of).collect()
}

#[test]
fn every_segment_of_a_file_is_accepted() {
    for family in families(SMALL) {
        let input = family.variants[0].in_every_segment(family.types[0], 300);
        let request = input.request(&input.image);
        let room = (input.allocation, input.stored.len());
        let first = outcome(second::prepare, &request, room);
        assert_eq!(first.0.refusal, 0, "{}", family.name);
        let last = crate::answer::Request {
            number: 300,
            ..request
        };
        assert!(
            outcome(second::prepare, &last, room) == first,
            "{}",
            family.name
        );
    }
}

#[test]
fn the_largest_are_accepted() {
    for family in families(Size::LARGEST) {
        let candidate = family.variants[0].candidate(family.types[0]);
        let input = &candidate.slow;
        let room = (input.allocation, input.stored.len());
        let answer = outcome(second::prepare, &input.request(&input.image), room).0;
        let got = (answer.refusal, answer.sites as usize);
        assert_eq!(got, (0, candidate.sites), "{}", family.name);
        assert!(input.image.len() <= 16_777_216, "{}", family.name);
    }
}

#[test]
fn tables_have_what_fits() {
    let table = |most| {
        Table::of(
            most,
            [(FIXED, 1), (NULL, 9), (MOVABLE, 1)].into_iter().cycle(),
        )
    };
    let whole = [1, 2, 3, 1, 0, 9, 0, 1, 255, 3, 0xCD, 0x3F, 2, 11, 0, 0];
    assert_eq!(table(16).bytes, whole);
    assert_eq!(table(20).bytes, whole);
    assert_eq!(table(21).ordinals, [1, 11, 12]);
    assert_eq!(table(15).bytes, [1, 2, 3, 1, 0, 9, 0, 0]);
    assert_eq!(table(5).bytes, [0]);
    let most = Table::of(65_535, std::iter::repeat((NULL, 255)));
    assert_eq!(most.bytes.len(), 2 * 257 + 1);
}

#[test]
fn nulls_leave_room_for_the_last_bundle() {
    for last in [(FIXED, 1), (FIXED, 16), (MOVABLE, 1), (MOVABLE, 16)] {
        let table = Table::behind_nulls(65_535, last);
        assert!((65_534..=65_535).contains(&table.bytes.len()), "{last:?}");
        assert_eq!(table.ordinals.len(), usize::from(last.1));
    }
}

#[test]
fn orders_of_ordinals() {
    let ordinals = [3, 8, 9, 16, 17, 24];
    assert_eq!(Order::Ascending.of(&ordinals), ordinals);
    assert_eq!(Order::Descending.of(&ordinals), [24, 17, 16, 9, 8, 3]);
    assert_eq!(Order::Last.of(&ordinals), [24]);
    assert_eq!(Order::Rest(3).of(&ordinals), [3]);
    assert!(Order::Rest(4).of(&ordinals).is_empty());
    for (order, all) in [
        (Order::Random, &ordinals[..]),
        (Order::Rest(0), &[8, 16, 24]),
    ] {
        let mut asked = order.of(&ordinals);
        asked.sort();
        assert_eq!(asked, all);
    }
}
