//! The types and ids that are asked for.

use super::{asked, input, without_header};
use crate::calls::{ResourceByWords, Words};
use crate::inputs::Input;
use std::collections::BTreeSet;

/// Ids 1 and 8001h of 8001h, 8001h of 1, and 8001h and 8003h of 8001h.
fn several() -> Input {
    input("a type in several blocks")
}

fn of_several(request: u64) -> BTreeSet<Words> {
    asked::<ResourceByWords>(&several(), request)
}

#[test]
fn words_as_they_are() {
    let held = [
        (0x8001, 0x0001),
        (0x8001, 0x8001),
        (0x0001, 0x8001),
        (0x8001, 0x8003),
    ];
    for request in [0, 1] {
        assert_eq!(of_several(request), BTreeSet::from(held));
    }
}

#[test]
fn mixed_words() {
    let mixed = of_several(2);
    assert!(mixed.contains(&(0x0001, 0x8003)));
    assert!(mixed.contains(&(0x0001, 0x0001)));
    let exchanged = of_several(3);
    assert!(exchanged.contains(&(0x8003, 0x8001)));
}

#[test]
fn changed_words() {
    let other_high_bits = of_several(4);
    for words in [
        (0x0001, 0x8003),
        (0x8001, 0x0003),
        (0x0001, 0x0003),
        (0x8001, 0x8001),
    ] {
        assert!(other_high_bits.contains(&words));
    }
    let over_16_bits = of_several(5);
    for words in [
        (0x1_8001, 0x8003),
        (0x8001, 0xFFFF_8003),
        (0x8000_8001, 0x8000_8003),
    ] {
        assert!(over_16_bits.contains(&words));
    }
    assert!(of_several(6).contains(&(0x8001, 0x8002)));
    assert!(of_several(7).contains(&(0x8001, 0x8001)));
    assert!(of_several(7).contains(&(0xFFFF_FFFF, 0x8002)));
}

#[test]
fn words_of_no_table() {
    for image in [input("no resource"), without_header(0), without_header(100)] {
        let asked = asked::<ResourceByWords>(&image, 0);
        assert_eq!(asked, BTreeSet::from([(0x8001, 0x8001)]));
    }
}
