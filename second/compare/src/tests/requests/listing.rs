//! The rooms that the listing is asked to be written to.

use super::{asked, input, without_header};
use crate::calls::{Call, Function, HeaderQuery, Held, List, Listing, Query, REQUESTS};
use crate::inputs::{Input, Kind};
use std::collections::BTreeSet;

fn lengths(input: &Input, request: u64) -> BTreeSet<usize> {
    let all = asked::<List>(input, request);
    all.iter().map(|one| one.room.items().len()).collect()
}

/// The listing of P10 has 39 bytes.
#[test]
fn rooms_of_p10() {
    let of = |request| lengths(&input("P10"), request);
    for (request, expected) in [(0, 39), (1, 38), (2, 40), (3, 0)] {
        assert_eq!(of(request), BTreeSet::from([expected]));
    }
    assert!(of(4).iter().all(|length| *length >= 39));
    assert!(of(4).contains(&39) && of(4).contains(&338));
    assert_eq!(of(5), (0..40).collect());
    for request in 6..REQUESTS {
        assert_eq!(of(request), (0..39).collect());
    }
}

/// A refusal of 10 bytes.
#[test]
fn rooms_of_random_bytes() {
    for (request, expected) in [(0, 10), (1, 9), (2, 11), (3, 0)] {
        let of = lengths(&without_header(100), request);
        assert_eq!(of, BTreeSet::from([expected]));
    }
}

/// No room may be at any address; what there is differs from 0.
#[test]
fn lent_room() {
    let none = asked::<List>(&input("P10"), 3);
    for address in [0, 1, 3, usize::MAX] {
        let room = Held::NothingAt(address);
        assert!(none.contains(&Listing { room }), "{address}");
    }
    for request in asked::<List>(&input("P10"), 4) {
        assert!(request.room.items().iter().all(|byte| *byte != 0));
    }
}

/// A refusal counts where all of it is there.
#[test]
fn refusals_that_are_cut() {
    let counts = |room, text: &str| -> Vec<&str> {
        let request = Listing::in_room(room);
        let answer = request.says(text);
        let kinds = List::AMOUNTS.iter();
        let counting = kinds.filter(|kind| (kind.counts)(&request, &answer));
        counting.map(|kind| kind.amount.what).collect()
    };
    let cut = "listings that are cut";
    let whole = "listings with room for all of them";
    let said = |refusal| format!("listings that are `refused {refusal}`");
    assert_eq!(counts(9, "refused 2\n"), [cut]);
    assert_eq!(counts(10, "refused 2\n"), [said(2).as_str(), whole]);
    assert_eq!(counts(10, "refused 14\n"), [cut]);
    assert_eq!(counts(99, "refused 14\n"), [said(14).as_str(), whole]);
    assert_eq!(counts(99, "refused 8\n"), [whole]);
}

/// A header is asked for once.
#[test]
fn headers_of_an_image() {
    let header = Function::<HeaderQuery>::exported();
    let made = |request: &u64| header.makes(Kind::Sound, *request);
    assert_eq!((0..REQUESTS).filter(made).collect::<Vec<u64>>(), [0]);
}
