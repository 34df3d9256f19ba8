//! P1 to P12 of document 01.

use crate::build::*;
use reference::{ordinal, Entry};

const P1: [u8; 8] = [0x00, 0x00, 0x06, 0x00, 0xAA, 0xBB, 0xFF, 0xFF];
const P7: [u8; 3] = [0xFF, 0xFF, 0x55];
pub const P10: [u8; 16] = [
    0x01, 0x01, 0x01, 0x10, 0x00, 0x02, 0x00, 0x01, 0xFF, 0x03, 0xCD, 0x3F, 0x02, 0x20, 0x00, 0x00,
];

/// Two segments and this entry table.
pub fn two_segments(entry: &[u8]) -> Vec<u8> {
    Build {
        segments: vec![plain(&[1]), plain(&[2])],
        entry: entry.to_vec(),
        ..Build::default()
    }
    .image()
}

#[test]
fn p1_offset_chain() {
    let done = prepared(&one(&P1, &[chained(OFFSET, 2)])).unwrap();
    let bytes = [0x00, 0x00, 0x34, 0x12, 0xAA, 0xBB, 0x34, 0x12];
    assert_eq!(done.bytes, bytes);
    assert_eq!(done.marks, [0, 0, 1, 1, 0, 0, 1, 1]);
    assert_eq!(done.sites, 2);
}

#[test]
fn p2_far_pointer_past_the_stored_bytes() {
    assert_eq!(refusal(&one(&P1, &[chained(FAR, 2)])), (24, 1));
}

#[test]
fn p3_additive_offset() {
    let done = prepared(&one(&P1, &[additive(OFFSET, 2)])).unwrap();
    let bytes = [0x00, 0x00, 0x3A, 0x12, 0xAA, 0xBB, 0xFF, 0xFF];
    assert_eq!(done.bytes, bytes);
    assert_eq!(done.marks, [0, 0, 1, 1, 0, 0, 0, 0]);
    assert_eq!(done.sites, 1);
}

#[test]
fn p4_additive_offset_wraps() {
    let (bytes, sites) = bytes_and_sites(&one(&P1, &[record(OFFSET, ADD, 6, 1, 2)]));
    assert_eq!(bytes, [0x00, 0x00, 0x06, 0x00, 0xAA, 0xBB, 0x01, 0x00]);
    assert_eq!(sites, 1);
}

#[test]
fn p5_second_record_meets_the_first() {
    let at = |site| one(&P1, &[additive(OFFSET, 2), additive(SELECTOR, site)]);
    assert_eq!(refusal(&at(3)), (25, 2));
    let (bytes, sites) = bytes_and_sites(&at(4));
    assert_eq!(bytes, [0x00, 0x00, 0x3A, 0x12, 0x00, 0x20, 0xFF, 0xFF]);
    assert_eq!(sites, 2);
}

#[test]
fn p6_cycle() {
    assert_eq!(refusal(&one(&[2, 0, 0, 0], &[chained(OFFSET, 0)])), (25, 1));
}

#[test]
fn p7_chained_low_byte() {
    let done = prepared(&one(&P7, &[chained(LOW, 0)])).unwrap();
    assert_eq!(done.bytes, [0x34, 0xFF, 0x55]);
    assert_eq!(done.marks, [1, 1, 0]);
    assert_eq!(done.sites, 1);
}

#[test]
fn p8_low_byte_at_the_last_byte() {
    let done = prepared(&one(&P7, &[additive(LOW, 2)])).unwrap();
    assert_eq!(done.bytes, [0xFF, 0xFF, 0x89]);
    assert_eq!(done.marks, [0, 0, 1]);
    assert_eq!(refusal(&one(&P7, &[chained(LOW, 2)])), (24, 1));
}

#[test]
fn p9_no_carry_into_the_selector() {
    let far = record(FAR, ADD, 0, 1, 3);
    let (bytes, _) = bytes_and_sites(&one(&[0xFE, 0xFF, 0x00, 0x00], &[far]));
    assert_eq!(bytes, [0x01, 0x00, 0x00, 0x20]);
}

#[test]
fn p10_ordinals() {
    let image = two_segments(&P10);
    let first = Entry {
        segment: 1,
        offset: 0x10,
        flag: 1,
    };
    let fourth = Entry {
        segment: 2,
        offset: 0x20,
        flag: 3,
    };
    assert_eq!(ordinal(&image, 1), Ok(first));
    assert_eq!(ordinal(&image, 4), Ok(fourth));
    for number in [0, 2, 3, 5, 65_535, 65_536, 65_537, u32::MAX] {
        assert_eq!(ordinal(&image, number), Err(15));
    }
}

#[test]
fn p11_entry_table_cut_or_empty() {
    let mut image = two_segments(&P10);
    put_word(&mut image, ENTRY_BYTES, 15);
    assert_eq!(ordinal(&image, 1), Err(12));
    put_word(&mut image, ENTRY_BYTES, 0);
    for number in 0..6 {
        assert_eq!(ordinal(&image, number), Err(15));
    }
}

#[test]
fn p12_no_stored_bytes() {
    let mut build = with(&[], &[]);
    build.segments[0].allocation = Some(3);
    let done = prepared(&build.image()).unwrap();
    assert_eq!(done.bytes, [0, 0, 0]);
    assert_eq!(done.marks, []);
    assert_eq!(done.sites, 0);
}
