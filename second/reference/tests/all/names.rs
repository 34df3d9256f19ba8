//! Resident and nonresident names: 16, then 8 or 17.

use crate::build::*;
use reference::{name_by_bytes, name_by_number, Name};

/// A list's string: length byte, text, ordinal word.
fn string(text: &[u8], ordinal: u16) -> Vec<u8> {
    let mut bytes = vec![text.len() as u8];
    bytes.extend(text);
    bytes.extend(ordinal.to_le_bytes());
    bytes
}

/// A list of these texts and ordinals with its end byte.
fn list(strings: &[(&str, u16)]) -> Vec<u8> {
    let mut bytes: Vec<u8> = strings
        .iter()
        .flat_map(|(text, ordinal)| string(text.as_bytes(), *ordinal))
        .collect();
    bytes.push(0);
    bytes
}

fn image(resident: &[u8], nonresident: &[u8]) -> Vec<u8> {
    Build {
        resident: resident.to_vec(),
        nonresident: nonresident.to_vec(),
        ..Build::default()
    }
    .image()
}

fn sample() -> Vec<u8> {
    image(
        &list(&[("MOD", 0), ("ABC", 5), ("Abc", 6), ("ABC", 7)]),
        &list(&[("DESC", 0), ("MOD", 8), ("ABC", 9), ("DESC", 0xFFFE)]),
    )
}

/// Both name calls give this refusal, whatever is asked.
fn both_refuse(image: &[u8], refusal: u32) {
    for number in [0, 1, 2, 100_000] {
        assert_eq!(name_by_number(image, number), Err(refusal));
    }
    assert_eq!(name_by_bytes(image, b"ABC"), Err(refusal));
    assert_eq!(name_by_bytes(image, b""), Err(refusal));
}

#[test]
fn names_are_numbered_through_both_lists() {
    let image = sample();
    let texts = ["MOD", "ABC", "Abc", "ABC", "DESC", "MOD", "ABC", "DESC"];
    let ordinals = [0, 5, 6, 7, 0, 8, 9, 0xFFFE];
    for (index, (text, ordinal)) in texts.iter().zip(ordinals).enumerate() {
        let number = index as u32 + 1;
        let found = name_by_number(&image, number).unwrap();
        assert_eq!(found.number, number);
        assert_eq!(found.ordinal, ordinal);
        // The text place is the first text byte's.
        let at = found.text_at as usize;
        assert_eq!(&image[at..at + found.text_len as usize], text.as_bytes());
    }
    for number in [0, 9, 65_537, u32::MAX] {
        assert_eq!(name_by_number(&image, number), Err(8));
    }
}

#[test]
fn lookup_takes_the_first_match_from_the_second_strings_on() {
    let image = sample();
    let number = |text: &[u8]| name_by_bytes(&image, text).map(|name| name.number);
    assert_eq!(number(b"ABC"), Ok(2));
    assert_eq!(number(b"Abc"), Ok(3));
    // First strings can't be asked by bytes; later equal ones can.
    assert_eq!(number(b"MOD"), Ok(6));
    assert_eq!(number(b"DESC"), Ok(8));
    for text in ["abc", "AB", "ABCD", "", "D", "ABC\0"] {
        assert_eq!(number(text.as_bytes()), Err(17), "{text}");
    }
    let same = name_by_number(&image, 6);
    assert_eq!(name_by_bytes(&image, b"MOD"), same);
}

#[test]
fn only_first_strings() {
    let image = image(&list(&[("ONE", 1)]), &list(&[("TWO", 2)]));
    assert_eq!(name_by_bytes(&image, b"ONE"), Err(17));
    assert_eq!(name_by_bytes(&image, b"TWO"), Err(17));
    assert_eq!(name_by_number(&image, 2).unwrap().ordinal, 2);
}

#[test]
fn an_empty_resident_list_does_not_shift_the_skipping() {
    let image = image(&[0], &list(&[("ONE", 1), ("TWO", 2)]));
    assert_eq!(name_by_bytes(&image, b"ONE"), Err(17));
    assert_eq!(name_by_bytes(&image, b"TWO").unwrap().number, 2);
}

#[test]
fn empty_lists_are_sound() {
    for nonresident in [vec![], vec![0], vec![0, 9, 9]] {
        let image = image(&[0], &nonresident);
        assert_eq!(name_by_number(&image, 1), Err(8));
        assert_eq!(name_by_bytes(&image, b"A"), Err(17));
    }
}

#[test]
fn longest_name_and_over_long_names() {
    let longest = [b'x'; 255];
    let mut resident = string(b"M", 0);
    resident.extend(string(&longest, 3));
    resident.push(0);
    let image = image(&resident, &[]);
    assert_eq!(name_by_bytes(&image, &longest).unwrap().text_len, 255);
    assert_eq!(name_by_bytes(&image, &[b'x'; 256]), Err(17));
    assert_eq!(name_by_bytes(&image, &[b'x'; 511]), Err(17));
    assert_eq!(name_by_bytes(&image, &[b'x'; 254]), Err(17));
}

#[test]
fn resident_list_ends_inside_the_image() {
    let strings = list(&[("MOD", 0), ("ABC", 5)]);
    let whole = image(&strings, &[]);
    assert!(name_by_number(&whole, 1).is_ok());
    // One byte less each time, down to the empty list.
    for cut in 1..=strings.len() {
        both_refuse(&whole[..whole.len() - cut], 16);
    }
    // A place at or past the image's end.
    let mut past = whole.clone();
    let end = whole.len() - NE;
    for place in [end, end + 1, 0xFFFF] {
        put_word(&mut past, RESIDENT, place as u16);
        both_refuse(&past, 16);
    }
    put_word(&mut past, RESIDENT, (end - 1) as u16);
    assert_eq!(name_by_number(&past, 1), Err(8));
}

#[test]
fn nonresident_list_ends_inside_its_byte_count() {
    let strings = list(&[("DESC", 0), ("ABC", 5)]);
    let mut image = image(&[0], &strings);
    image.resize(image.len() + 300, 0);
    assert!(name_by_bytes(&image, b"ABC").is_ok());
    for size in 1..strings.len() {
        put_word(&mut image, NONRESIDENT_BYTES, size as u16);
        both_refuse(&image, 16);
    }
    // A longer count is good too: bytes after the end byte aren't read.
    put_word(&mut image, NONRESIDENT_BYTES, strings.len() as u16 + 1);
    assert!(name_by_bytes(&image, b"ABC").is_ok());
}

#[test]
fn name_calls_do_not_walk_the_entry_table() {
    let build = Build {
        resident: list(&[("MOD", 0), ("ABC", 5)]),
        entry: vec![1],
        ..Build::default()
    };
    assert!(name_by_bytes(&build.image(), b"ABC").is_ok());
    assert!(name_by_number(&build.image(), 2).is_ok());
}

#[test]
fn more_than_65_535_names() {
    // The resident list is moved to the image's end, where it has room.
    let mut image = image(&[0], &list(&[("DESC", 0), ("END", 4)]));
    let place = image.len();
    put_word(&mut image, RESIDENT, (place - NE) as u16);
    for number in 0..70_000u32 {
        let text = [
            b'a',
            (number >> 16) as u8,
            (number >> 8) as u8,
            number as u8,
        ];
        image.extend(string(&text, number as u16));
    }
    image.push(0);
    let last = Name {
        number: 70_000,
        text_at: (place + 7 * 69_999 + 1) as u32,
        text_len: 4,
        ordinal: 69_999 - 65_536,
    };
    assert_eq!(name_by_number(&image, 70_000), Ok(last));
    let text = [b'a', 1, (69_999u32 >> 8) as u8, 69_999u32 as u8];
    assert_eq!(name_by_bytes(&image, &text), Ok(last));
    assert_eq!(name_by_number(&image, 70_002).unwrap().ordinal, 4);
    assert_eq!(name_by_bytes(&image, b"END").unwrap().number, 70_002);
    assert_eq!(name_by_number(&image, 70_003), Err(8));
}
