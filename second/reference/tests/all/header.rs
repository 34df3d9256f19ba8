//! Refusals 1 to 7.

use crate::build::*;
use reference::*;

/// The answer of every call as a refusal number, 0 where accepted. The calls
/// ask for what an image with one segment, module, name and resource has.
pub fn all_calls(image: &[u8]) -> Vec<u32> {
    let number = |refused: Option<u32>| refused.unwrap_or(0);
    let mut output = [0; 64];
    let mut marks = [0; 64];
    let prepared = prepare(image, 1, &[7; 8], &[7; 8], &mut output, &mut marks);
    vec![
        number(tables(image).err()),
        number(segment(image, 1).err()),
        number(ordinal(image, 1).err()),
        number(name_by_number(image, 1).err()),
        number(name_by_bytes(image, b"TWO").err()),
        number(module(image, 1).err()),
        number(resource_by_number(image, 1).err()),
        number(resource_by_words(image, 0x8001, 0x8002).err()),
        number(prepared.err().map(|refused| refused.number)),
    ]
}

/// Every call refuses with this number, and so does the listing.
fn all_refuse(image: &[u8], refusal: u32) {
    assert_eq!(all_calls(image), vec![refusal; 9]);
    let line = format!("refused {refusal}\n");
    let mut room = vec![0; line.len()];
    assert_eq!(list(image, &mut room), line.len());
    assert_eq!(room, line.as_bytes());
    if image.len() <= 65_536 {
        assert_eq!(listing(image), room);
    }
}

/// An image on which every one of `all_calls` is accepted.
pub fn full() -> Build {
    Build {
        segments: vec![plain(&[1, 2, 3, 4])],
        entry: vec![1, 1, 0, 0, 0, 0],
        resident: b"\x03ONE\x00\x00\x03TWO\x01\x00\x00".to_vec(),
        nonresident: b"\x01D\x00\x00\x00".to_vec(),
        modules: vec![1],
        imported: b"\x00\x03USR".to_vec(),
        resources: Some(vec![
            0, 0, 1, 0x80, 1, 0, 0, 0, 0, 0, 8, 0, 4, 0, 0, 0, 2, 0x80, 0, 0, 0, 0, 0, 0,
        ]),
        ..Build::default()
    }
}

fn all_accept(image: &[u8]) {
    assert_eq!(all_calls(image), vec![0; 9]);
}

#[test]
fn full_image_is_accepted_by_every_call() {
    all_accept(&full().image());
}

#[test]
fn refusal_1_under_64_bytes() {
    all_refuse(&[], 1);
    all_refuse(&[b'M'; 63], 1);
    all_refuse(&full().image()[..63], 1);
    // 64 bytes exactly are not 1; the NE header has no room.
    all_refuse(&full().image()[..64], 4);
    all_refuse(&[0; 64], 3);
}

#[test]
fn refusal_2_over_16_777_216_bytes() {
    let mut image = full().image();
    image.resize(16_777_216, 0);
    all_accept(&image);
    image.push(0);
    all_refuse(&image, 2);
    image[0] = 0;
    all_refuse(&image, 2);
}

#[test]
fn refusal_3_no_mz() {
    for start in [*b"ZM", *b"MN", *b"NZ", *b"mz", [0, 0]] {
        let mut image = full().image();
        image[..2].copy_from_slice(&start);
        // 3 before 4.
        put_dword(&mut image, 0x3C, 0);
        all_refuse(&image, 3);
    }
}

#[test]
fn refusal_4_place_of_the_ne_header() {
    let mut image = full().image();
    // 4 before 5: there is no "NE" at these places either.
    for place in [0, 1, 63, 0x7FFF_FFFF, 0xFFFF_FFC0, 0xFFFF_FFFF] {
        put_dword(&mut image, 0x3C, place);
        all_refuse(&image, 4);
    }
    // 63 is 4 in a large image too.
    image.resize(70_000, 0);
    put_dword(&mut image, 0x3C, 63);
    all_refuse(&image, 4);
    put_dword(&mut image, 0x3C, 64);
    all_accept(&image);
}

#[test]
fn ne_header_ends_at_the_image_end() {
    // An image that is only headers; the NE header's place is odd.
    let mut image = vec![0; 65 + 64];
    image[..2].copy_from_slice(b"MZ");
    put_dword(&mut image, 0x3C, 65);
    image[65..67].copy_from_slice(b"NE");
    assert_eq!(ordinal(&image, 1), Err(15));
    assert_eq!(segment(&image, 1), Err(8));
    image.pop();
    all_refuse(&image, 4);
}

#[test]
fn refusal_5_no_ne() {
    for start in [*b"EN", *b"NX", *b"XE", *b"PE", *b"ne"] {
        let mut image = full().image();
        image[NE..NE + 2].copy_from_slice(&start);
        // 5 before 6.
        put_word(&mut image, SHIFT, 16);
        all_refuse(&image, 5);
    }
}

#[test]
fn refusal_6_alignment_shift() {
    let mut image = Build::default().image();
    put_word(&mut image, SHIFT, 15);
    assert_eq!(ordinal(&image, 1), Err(15));
    // 6 also with no segments, and before 7.
    for shift in [16, 17, 32, 64, 0x0100, 0xFFFF] {
        put_word(&mut image, SHIFT, shift);
        all_refuse(&image, 6);
    }
    put_word(&mut image, SEGMENT_COUNT, 0xFFFF);
    all_refuse(&image, 6);
}

/// A sized table: its place's field, its size's field, the size of one.
const SIZED: [(usize, usize, usize); 3] = [
    (SEGMENTS, SEGMENT_COUNT, 8),
    (MODULES, MODULE_COUNT, 2),
    (ENTRY, ENTRY_BYTES, 1),
];

#[test]
fn refusal_7_table_leaves_by_one_byte() {
    for (place, count, size) in SIZED {
        let mut image = Build::default().image();
        image.resize(400, 0);
        put_word(&mut image, count, 3);
        put_word(&mut image, place, (400 - NE - 3 * size) as u16);
        assert_eq!(ordinal(&image, 1), Err(15));
        put_word(&mut image, place, (400 - NE - 3 * size + 1) as u16);
        all_refuse(&image, 7);
        put_word(&mut image, place, 0xFFFF);
        all_refuse(&image, 7);
        put_word(&mut image, count, 0xFFFF);
        all_refuse(&image, 7);
        // A table of size 0 is empty and its place isn't looked at.
        put_word(&mut image, count, 0);
        assert_eq!(ordinal(&image, 1), Err(15));
    }
}

#[test]
fn refusal_7_nonresident_names() {
    let mut image = Build::default().image();
    image.resize(400, 0);
    put_word(&mut image, NONRESIDENT_BYTES, 10);
    put_dword(&mut image, NONRESIDENT, 390);
    assert_eq!(name_by_number(&image, 1), Err(8));
    for place in [391, 400, 401, 0x0100_0000, 0xFFFF_FFF6, 0xFFFF_FFFF] {
        put_dword(&mut image, NONRESIDENT, place);
        all_refuse(&image, 7);
    }
    put_word(&mut image, NONRESIDENT_BYTES, 1);
    all_refuse(&image, 7);
    put_word(&mut image, NONRESIDENT_BYTES, 0);
    assert_eq!(name_by_number(&image, 1), Err(8));
}

#[test]
fn tables_past_65_535_are_read_there() {
    // NE place plus table word over 65,535: moved up whole, all is found.
    let small = full().image();
    let mut image = small[..64].to_vec();
    let up = 70_001;
    image.resize(64 + up, 0);
    image.extend(&small[64..]);
    put_dword(&mut image, 0x3C, (64 + up) as u32);
    let moved = |field: usize| field + up;
    let nonresident = small.len() - 4 - 5 + up;
    put_dword(&mut image, moved(NONRESIDENT), nonresident as u32);
    // The segment's sector stays; its bytes are the ones at that place.
    all_accept(&image);
    let there = name_by_bytes(&image, b"TWO").unwrap();
    let before = name_by_bytes(&small, b"TWO").unwrap();
    assert_eq!(there.text_at, before.text_at + up as u32);
    let there = module(&image, 1).unwrap();
    let before = module(&small, 1).unwrap();
    assert_eq!(there.text_at, before.text_at + up as u32);
}

#[test]
fn tables_may_overlap_everything() {
    // A segment table on the NE header's own first bytes: "NE" is its sector.
    let mut image = full().image();
    image.resize(0x454E + 0x1000, 0);
    put_word(&mut image, SEGMENTS, 0);
    put_word(&mut image, NE + 2, 0x0010);
    put_word(&mut image, ENTRY, 0);
    put_word(&mut image, ENTRY_BYTES, 0);
    let found = segment(&image, 1).unwrap();
    assert_eq!((found.start, found.stored), (0x454E, 0x10));
    assert_eq!(found.allocation, 65_536);
}

#[test]
fn untested_fields() {
    let mut image = full().image();
    let before = all_calls(&image);
    // The word at 18h, the counts at 30 and 34, and all other fields.
    let tested = [0x3C, 0x3D, 0x3E, 0x3F];
    for at in (2..64).filter(|at| !tested.contains(at)) {
        image[at] = 0xFF;
    }
    for field in (2..4).chain(8..0x1C).chain(0x30..0x32).chain(0x34..0x40) {
        image[NE + field] = 0xFF;
    }
    assert_eq!(all_calls(&image), before);
}
