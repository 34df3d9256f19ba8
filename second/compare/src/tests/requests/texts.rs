//! The names that are asked for by their bytes.

use super::{input, without_header};
use crate::calls::{NameByBytes, Text};
use crate::inputs::Input;
use std::collections::BTreeSet;

/// "MODULE", "First" and "Second"; then "A description", "First" and "Third".
fn full() -> Input {
    input("Resources ends the image, less 0")
}

fn asked(input: &Input, request: u64) -> BTreeSet<Vec<u8>> {
    let asked = super::asked::<NameByBytes>(input, request);
    asked.iter().map(|text| text.bytes().to_vec()).collect()
}

fn set(texts: &[&str]) -> BTreeSet<Vec<u8>> {
    texts.iter().map(|text| text.as_bytes().to_vec()).collect()
}

const ALL: [&str; 5] = ["MODULE", "First", "Second", "A description", "Third"];

#[test]
fn strings_as_they_are() {
    assert_eq!(asked(&full(), 0), set(&["First", "Second", "Third"]));
    assert_eq!(asked(&full(), 1), set(&["Third"]));
    assert_eq!(asked(&full(), 2), set(&["MODULE", "A description"]));
}

#[test]
fn changed_strings() {
    let changed = asked(&full(), 3);
    assert!(changed.is_superset(&set(&["first", "FIrst", "Secone", "mODULE"])));
    assert!(changed.is_disjoint(&set(&ALL)));
    let shorter = asked(&full(), 4);
    assert!(shorter.is_superset(&set(&["", "F", "Firs", "A descriptio"])));
    assert!(shorter.iter().all(|text| text.len() < 13));
    let longer = asked(&full(), 5);
    assert!(longer.is_superset(&set(&["FirstA", "First\0", "\u{6}Second"])));
    assert!(longer.is_disjoint(&set(&ALL)));
}

#[test]
fn lengths_that_no_list_has() {
    let lengths: BTreeSet<usize> = asked(&full(), 6).iter().map(Vec::len).collect();
    assert_eq!(lengths, BTreeSet::from([0, 1, 2, 255, 256, 300]));
    let long = asked(&full(), 7);
    let starts = |text: &str| {
        let starts = |long: &Vec<u8>| long.starts_with(text.as_bytes());
        long.iter()
            .any(|long| starts(long) && long.len() == 256 + text.len())
    };
    assert!(ALL.into_iter().all(starts));
}

#[test]
fn empty_names_anywhere() {
    let asked = super::asked::<NameByBytes>(&full(), 7);
    for address in [0, 1, usize::MAX] {
        assert!(asked.contains(&Text::NothingAt(address)));
    }
}

/// Where no string is stated, some letters are asked for.
#[test]
fn texts_of_random_bytes() {
    for length in [0, 63, 64, 100] {
        for request in 0..3 {
            assert_eq!(asked(&without_header(length), request), set(&["ABC"]));
        }
    }
}
