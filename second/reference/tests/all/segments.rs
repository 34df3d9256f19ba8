//! The segment query: 8, 10, 11, 9.

use crate::build::*;
use reference::{segment, Segment};

/// An image of 400 bytes whose segment record 1 is these words.
fn row_of(sector: u16, length: u16, flags: u16, allocation: u16) -> Vec<u8> {
    let mut image = with(&[1], &[]).image();
    image.resize(400, 0);
    let at = row(&image, 1);
    put_word(&mut image, at, sector);
    put_word(&mut image, at + 2, length);
    put_word(&mut image, at + 4, flags);
    put_word(&mut image, at + 6, allocation);
    image
}

#[test]
fn accepted_segment_gives_its_fields() {
    let stored = vec![9; 20];
    let mut build = with(&stored, &[chained(OFFSET, 0), chained(OFFSET, 2)]);
    build.shift = 4;
    build.segments[0].flags = 0xF2F7;
    build.segments[0].allocation = Some(0x30);
    let image = build.image();
    let expected = Segment {
        start: u32::from(word(&image, row(&image, 1))) * 16,
        stored: 20,
        flags: 0xF3F7,
        allocation: 0x30,
        records: 2,
    };
    assert_eq!(segment(&image, 1), Ok(expected));
    let start = expected.start as usize;
    assert_eq!(image[start..start + 20], stored);
}

#[test]
fn shift_0_is_times_1() {
    assert_eq!(segment(&row_of(301, 5, 0, 5), 1).unwrap().start, 301);
}

#[test]
fn refusal_8_number() {
    let build = Build {
        segments: vec![plain(&[1]), plain(&[2]), plain(&[3])],
        ..Build::default()
    };
    let image = build.image();
    assert_eq!(segment(&image, 0), Err(8));
    assert!(segment(&image, 3).is_ok());
    for number in [4, 65_535, 65_537, 65_539, u32::MAX] {
        assert_eq!(segment(&image, number), Err(8));
    }
    // Only the segment asked for is checked.
    let mut image = image;
    let second = row(&image, 2);
    put_word(&mut image, second + 4, 0x0008);
    assert_eq!(segment(&image, 2), Err(10));
    assert!(segment(&image, 1).is_ok() && segment(&image, 3).is_ok());
    assert!(prepared(&image).is_ok());
}

#[test]
fn segment_query_does_not_walk_the_entry_table() {
    let mut build = with(&[1], &[]);
    build.entry = vec![1];
    assert!(segment(&build.image(), 1).is_ok());
}

#[test]
fn stored_bytes_end_at_the_image_end() {
    assert!(segment(&row_of(395, 5, 0, 5), 1).is_ok());
    assert_eq!(segment(&row_of(396, 5, 0, 5), 1), Err(9));
    assert!(segment(&row_of(399, 1, 0, 1), 1).is_ok());
    assert_eq!(segment(&row_of(400, 1, 0, 1), 1), Err(9));
    assert_eq!(segment(&row_of(0xFFFF, 1, 0, 1), 1), Err(9));
}

#[test]
fn stored_bytes_may_overlap_headers() {
    let found = segment(&row_of(1, 300, 0, 300), 1).unwrap();
    assert_eq!((found.start, found.stored), (1, 300));
}

#[test]
fn record_list_at_its_edges() {
    // The count word half inside, wholly inside, then records by one byte.
    assert_eq!(segment(&row_of(395, 5, 0x0100, 5), 1), Err(9));
    assert_eq!(segment(&row_of(394, 5, 0x0100, 5), 1), Err(9));
    assert_eq!(segment(&row_of(393, 5, 0x0100, 5), 1).unwrap().records, 0);
    let mut image = row_of(300, 2, 0x0100, 5);
    put_word(&mut image, 302, 12);
    assert_eq!(segment(&image, 1).unwrap().records, 12);
    // 304 and 12 times 8 is 400, the image's length.
    image.pop();
    assert_eq!(segment(&image, 1), Err(9));
    // 8 times 65,535 and 8 times 8,192 don't wrap.
    for count in [0x2000, 0xFFFF] {
        put_word(&mut image, 302, count);
        assert_eq!(segment(&image, 1), Err(9));
    }
    // Without 0100h nothing behind the stored bytes is looked at.
    let at = row(&image, 1);
    put_word(&mut image, at + 4, 0xFEF7);
    assert_eq!(segment(&image, 1).unwrap().records, 0);
}

#[test]
fn sector_0_has_no_stored_bytes() {
    // Whatever the length says, and never 11.
    for length in [0, 1, 0xFFFF] {
        let found = segment(&row_of(0, length, 0x0001, 1), 1).unwrap();
        let expected = Segment {
            start: 0,
            stored: 0,
            flags: 1,
            allocation: 1,
            records: 0,
        };
        assert_eq!(found, expected);
    }
    // Records with sector 0 are 9, whatever else is there; iterated first.
    let mut image = row_of(0, 0, 0x0100, 1);
    assert_eq!(segment(&image, 1), Err(9));
    image.resize(1_000_000, 0);
    assert_eq!(segment(&image, 1), Err(9));
    assert_eq!(refusal(&image), (9, 0));
    assert_eq!(segment(&row_of(0, 5, 0x0108, 1), 1), Err(10));
    assert_eq!(segment(&row_of(0, 5, 0x0008, 1), 1), Err(10));
}

#[test]
fn order_10_11_9() {
    assert_eq!(segment(&row_of(0xFFFF, 5, 0x0008, 4), 1), Err(10));
    assert_eq!(segment(&row_of(0xFFFF, 5, 0x0000, 4), 1), Err(11));
    assert_eq!(segment(&row_of(0xFFFF, 5, 0x0000, 5), 1), Err(9));
    assert_eq!(segment(&row_of(300, 5, 0x0000, 4), 1), Err(11));
    assert!(segment(&row_of(300, 5, 0x0000, 5), 1).is_ok());
    assert!(segment(&row_of(300, 5, 0x0000, 6), 1).is_ok());
}

#[test]
fn lengths_of_65_536() {
    let mut image = row_of(200, 0, 0, 0);
    image.resize(200 + 65_536, 0);
    let found = segment(&image, 1).unwrap();
    assert_eq!((found.stored, found.allocation), (65_536, 65_536));
    image.pop();
    assert_eq!(segment(&image, 1), Err(9));
    assert_eq!(segment(&row_of(200, 0, 0, 0xFFFF), 1), Err(11));
    let found = segment(&row_of(200, 7, 0, 0), 1).unwrap();
    assert_eq!((found.stored, found.allocation), (7, 65_536));
}

#[test]
fn starts_past_16_and_24_bits() {
    let mut image = row_of(0x00FF, 16, 0, 16);
    put_word(&mut image, SHIFT, 15);
    image.resize(0xFF * 0x8000 + 16, 0);
    assert_eq!(segment(&image, 1).unwrap().start, 0x7F_8000);
    image.pop();
    assert_eq!(segment(&image, 1), Err(9));
    // Starts that are inside only when cut to 16, 24 or 31 bits.
    image.resize(16_777_216, 0);
    let at = row(&image, 1);
    for sector in [0x0200, 0x0201, 0x8001, 0xFFFF] {
        put_word(&mut image, at, sector);
        assert_eq!(segment(&image, 1), Err(9));
    }
    put_word(&mut image, at, 0x01FF);
    put_word(&mut image, at + 2, 0x8000);
    put_word(&mut image, at + 6, 0x8000);
    assert_eq!(segment(&image, 1).unwrap().start, 0xFF_8000);
}
