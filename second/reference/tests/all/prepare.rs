//! Preparing: its order before records, 21, and what it leaves in lent
//! buffers.

use crate::build::*;
use crate::header::full;
use reference::{prepare, Refused};

/// Two segments, the first of 4 stored bytes with two records.
fn base() -> Build {
    let mut build = with(&[0xFF; 4], &[chained(OFFSET, 0), additive(LOW, 3)]);
    build.segments[0].allocation = Some(6);
    build.segments.push(plain(&[1, 2]));
    build
}

/// Prepares segment 1 with lists and buffers of these lengths.
fn with_lengths(image: &[u8], lengths: [usize; 4]) -> Result<u32, u32> {
    let [selectors, answers, output, marks] = lengths;
    let mut output = vec![0xEE; output];
    let mut marks = vec![0x77; marks];
    let selectors = vec![0x2000; selectors];
    let answers = vec![0; answers];
    let result = prepare(image, 1, &selectors, &answers, &mut output, &mut marks);
    if result.is_err() {
        assert!(output.iter().all(|&byte| byte == 0xEE));
        assert!(marks.iter().all(|&mark| mark == 0));
    }
    result.map_err(|refused| {
        assert_eq!(refused.record, 0);
        refused.number
    })
}

#[test]
fn refusal_21_at_each_edge() {
    let image = base().image();
    let enough = [2, 2, 6, 4];
    assert_eq!(with_lengths(&image, enough), Ok(2));
    for list in 0..4 {
        let mut more = enough;
        more[list] += 1;
        assert_eq!(with_lengths(&image, more), Ok(2));
        let mut less = enough;
        less[list] -= 1;
        assert_eq!(with_lengths(&image, less), Err(21), "{list}");
        less[list] = 0;
        assert_eq!(with_lengths(&image, less), Err(21), "{list}");
    }
}

#[test]
fn refusal_21_of_65_536_bytes() {
    let image = one(&[0; 65_536], &[]);
    assert_eq!(with_lengths(&image, [1, 0, 65_536, 65_536]), Ok(0));
    assert_eq!(with_lengths(&image, [1, 0, 65_535, 65_536]), Err(21));
    assert_eq!(with_lengths(&image, [1, 0, 65_536, 65_535]), Err(21));
}

#[test]
fn marks_may_be_empty_with_sector_0() {
    let mut build = with(&[], &[]);
    build.segments[0].allocation = Some(3);
    assert_eq!(with_lengths(&build.image(), [1, 0, 3, 0]), Ok(0));
    assert_eq!(with_lengths(&build.image(), [1, 0, 2, 0]), Err(21));
}

#[test]
fn order_8_then_12_to_14_then_10_11_9_21_then_records() {
    // All faults at once, then mended one by one in the order of refusal.
    let mut build = base();
    build.segments[0].records[0][0] = 1;
    build.entry = vec![1];
    build.segments[0].flags = 0x0008;
    build.segments[0].allocation = Some(3);
    let refused = |image: &[u8], number, selectors| {
        let selectors = vec![0; selectors];
        let result = prepared_with(image, number, &selectors, &[0; 2]);
        result.map(|done| done.sites)
    };
    let mut image = build.image();
    let at = row(&image, 1);
    let start = word(&image, at);
    put_word(&mut image, at, 0xFFFF);
    assert_eq!(refused(&image, 0, 0), Err(Refused::from(8)));
    assert_eq!(refused(&image, 3, 0), Err(Refused::from(8)));
    assert_eq!(refused(&image, 1, 0), Err(Refused::from(12)));
    let entry = NE + usize::from(word(&image, ENTRY));
    image[entry] = 0;
    assert_eq!(refused(&image, 1, 0), Err(Refused::from(10)));
    put_word(&mut image, at + 4, 0x0100);
    assert_eq!(refused(&image, 1, 0), Err(Refused::from(11)));
    put_word(&mut image, at + 6, 4);
    assert_eq!(refused(&image, 1, 0), Err(Refused::from(9)));
    put_word(&mut image, at, start);
    assert_eq!(refused(&image, 1, 0), Err(Refused::from(21)));
    let record = Refused {
        number: 22,
        record: 1,
    };
    assert_eq!(refused(&image, 1, 2), Err(record));
    image[usize::from(start) + 4 + 2] = OFFSET;
    assert_eq!(refused(&image, 1, 2), Ok(2));
}

#[test]
fn the_entry_table_is_walked_though_no_record_names_an_ordinal() {
    for (entry, refusal) in [(vec![1], 12), (vec![1, 9, 0, 0, 0, 0], 13)] {
        let mut build = base();
        build.entry = entry;
        assert_eq!(refusal_of(&build), (refusal, 0));
        build.segments[0].records.clear();
        assert_eq!(refusal_of(&build), (refusal, 0));
    }
    let mut build = base();
    build.entry = [255, 0].repeat(258);
    assert_eq!(refusal_of(&build), (14, 0));
}

fn refusal_of(build: &Build) -> (u32, u32) {
    refusal(&build.image())
}

#[test]
fn marks_are_zeroed_from_refusal_1_on() {
    // `refusal` checks output and marks in each.
    let good = full().image();
    assert_eq!(refusal(&[]), (1, 0));
    assert_eq!(refusal(&good[..64]), (4, 0));
    let mut image = good.clone();
    put_word(&mut image, SHIFT, 16);
    assert_eq!(refusal(&image), (6, 0));
    let mut image = good.clone();
    put_word(&mut image, SEGMENT_COUNT, 0xFFFF);
    assert_eq!(refusal(&image), (7, 0));
    put_word(&mut image, SEGMENT_COUNT, 0);
    assert_eq!(refusal(&image), (8, 0));
}

#[test]
fn stored_bytes_then_zeros_up_to_the_allocation() {
    let done = prepared(&base().image()).unwrap();
    assert_eq!(done.bytes, [0x34, 0x12, 0xFF, 0x33, 0, 0]);
    assert_eq!(done.marks, [1, 1, 0, 1]);
    assert_eq!(done.sites, 2);
}

#[test]
fn a_target_segments_own_record_is_not_looked_at() {
    let mut build = with(&[0xFF; 4], &[record(FAR, 0, 0, 2, 7)]);
    build.segments.push(Seg {
        flags: 0x0008,
        ..plain(&[1])
    });
    let mut image = build.image();
    let second = row(&image, 2);
    put_word(&mut image, second, 0xFFFF);
    let (bytes, _) = bytes_and_sites(&image);
    assert_eq!(bytes, [7, 0, 0x01, 0x20]);
}

#[test]
fn records_with_no_count_and_a_count_of_0() {
    let mut image = one(&[9, 8], &[]);
    image.extend([0, 0]);
    let at = row(&image, 1);
    put_word(&mut image, at + 4, 0x0100);
    assert_eq!(bytes_and_sites(&image), (vec![9, 8], 0));
    image.pop();
    assert_eq!(refusal(&image), (9, 0));
}

#[test]
fn the_last_of_65_535_records() {
    // Each an additive low byte at its own site; then the last meets one.
    let site = |number: u32| additive(LOW, number as u16);
    let mut records: Vec<[u8; 8]> = (0..65_535).map(site).collect();
    let answers = vec![0; 65_535];
    let image = one(&[1; 65_536], &records);
    let done = prepared_with(&image, 1, &[0], &answers).unwrap();
    assert_eq!(done.sites, 65_535);
    assert!(done.bytes[..65_535].iter().all(|&byte| byte == 0x35));
    assert_eq!(done.bytes[65_535], 1);
    assert_eq!(done.marks.iter().filter(|&&mark| mark == 1).count(), 65_535);
    records[65_534] = site(0);
    let image = one(&[1; 65_536], &records);
    let refused = Refused {
        number: 25,
        record: 65_535,
    };
    assert_eq!(prepared_with(&image, 1, &[0], &answers), Err(refused));
    // One answer fewer is 21 before it.
    let refused = prepared_with(&image, 1, &[0], &answers[1..]);
    assert_eq!(refused, Err(Refused::from(21)));
}
