//! The resource table: 18, then 8 or 19, then 20.

use crate::build::*;
use reference::{resource_by_number, resource_by_words, Resource};

/// A resource's 12 bytes: offset, length, flags, id, 4 reserved.
fn item(offset: u16, length: u16, flags: u16, id: u16) -> Vec<u8> {
    let words = [offset, length, flags, id, 0xAAAA, 0xBBBB];
    words.iter().flat_map(|word| word.to_le_bytes()).collect()
}

/// A block with its count.
fn block(type_word: u16, items: &[Vec<u8>]) -> Vec<u8> {
    let mut bytes = type_word.to_le_bytes().to_vec();
    bytes.extend((items.len() as u16).to_le_bytes());
    bytes.extend([0xCC; 4]);
    bytes.extend(items.concat());
    bytes
}

/// An image whose last part is this resource table.
fn image(shift: u16, blocks: &[Vec<u8>]) -> Vec<u8> {
    let mut table = shift.to_le_bytes().to_vec();
    table.extend(blocks.concat());
    table.extend([0, 0]);
    Build {
        resources: Some(table),
        ..Build::default()
    }
    .image()
}

/// Both resource calls give this refusal.
fn both_refuse(image: &[u8], refusal: u32) {
    assert_eq!(resource_by_number(image, 0), Err(refusal));
    assert_eq!(resource_by_number(image, 1), Err(refusal));
    assert_eq!(resource_by_words(image, 0x8001, 0x8001), Err(refusal));
    assert_eq!(resource_by_words(image, 1, 0x18001), Err(refusal));
}

#[test]
fn numbers_count_in_file_order_all_types_together() {
    let image = image(
        2,
        &[
            block(0x8001, &[item(1, 2, 3, 0x8001), item(4, 5, 6, 0x8002)]),
            block(0x8002, &[]),
            block(0x0007, &[item(7, 0, 9, 0x0008)]),
            block(0x8001, &[item(10, 11, 12, 0x8001), item(2, 2, 2, 0x0009)]),
        ],
    );
    let expected = [
        (0x8001, 0x8001, 3, 4, 8),
        (0x8001, 0x8002, 6, 16, 20),
        (0x0007, 0x0008, 9, 28, 0),
        (0x8001, 0x8001, 12, 40, 44),
        (0x8001, 0x0009, 2, 8, 8),
    ];
    for (number, (type_, id, flags, data_at, data_len)) in (1..).zip(expected) {
        let resource = Resource {
            type_,
            id,
            flags,
            data_at,
            data_len,
        };
        assert_eq!(resource_by_number(&image, number), Ok(resource));
    }
    for number in [0, 6, 65_537, u32::MAX] {
        assert_eq!(resource_by_number(&image, number), Err(8));
    }
    let by_words = |type_, id| resource_by_words(&image, type_, id).map(|found| found.flags);
    // First match in file order.
    assert_eq!(by_words(0x8001, 0x8001), Ok(3));
    assert_eq!(by_words(0x8001, 0x8002), Ok(6));
    // Words without the high bit, or over 16 bits, find nothing.
    let nothing = [
        (0x0007, 0x0008),
        (0x8001, 0x0009),
        (0x0007, 0x8001),
        (0x8002, 0x8001),
        (0x8003, 0x8001),
        (0x8001, 0x8003),
        (0x18001, 0x8001),
        (0x8001, 0x18001),
        (0, 0x8001),
    ];
    for (type_, id) in nothing {
        assert_eq!(by_words(type_, id), Err(19), "{type_:X} {id:X}");
    }
}

#[test]
fn equal_places_at_24_and_26_mean_none() {
    let mut image = Build::default().image();
    assert_eq!(resource_by_number(&image, 1), Err(8));
    assert_eq!(resource_by_words(&image, 0x8001, 0x8001), Err(19));
    // Wherever they point.
    put_word(&mut image, RESOURCES, 0xFFFF);
    put_word(&mut image, RESIDENT, 0xFFFF);
    assert_eq!(resource_by_number(&image, 1), Err(8));
    assert_eq!(resource_by_words(&image, 0x8001, 0x8001), Err(19));
    put_word(&mut image, RESIDENT, 0xFFFE);
    both_refuse(&image, 18);
}

#[test]
fn refusal_18_shift() {
    let image_of = |shift| image(shift, &[block(0x8001, &[item(0, 0, 0, 0x8001)])]);
    assert!(resource_by_number(&image_of(15), 1).is_ok());
    both_refuse(&image_of(16), 18);
    both_refuse(&image_of(0xFFFF), 18);
}

#[test]
fn refusal_18_at_every_cut() {
    let whole = image(
        0,
        &[
            block(0x8001, &[item(0, 1, 0, 0x8001), item(0, 1, 0, 0x8002)]),
            block(0x8002, &[]),
        ],
    );
    let table = NE + usize::from(word(&whole, RESOURCES));
    // It ends with type 0, which needs only its own 2 bytes.
    assert!(resource_by_words(&whole, 0x8001, 0x8001).is_ok());
    for length in table..whole.len() {
        both_refuse(&whole[..length], 18);
    }
}

#[test]
fn a_table_of_type_0_only() {
    let image = image(3, &[]);
    assert_eq!(resource_by_number(&image, 1), Err(8));
    assert_eq!(resource_by_words(&image, 0x8001, 0x8001), Err(19));
}

#[test]
fn the_whole_table_is_checked_before_anything_is_searched() {
    let mut image = image(0, &[block(0x8001, &[item(0, 1, 0, 0x8001)])]);
    let end = image.len();
    image[end - 2] = 1;
    both_refuse(&image, 18);
    // A count that would reach far past the end.
    image.extend([0xFF, 0xFF, 0, 0, 0, 0]);
    both_refuse(&image, 18);
}

#[test]
fn refusal_20_at_its_edges() {
    let with_item = |offset, length, shift| {
        let mut image = image(shift, &[block(0x8001, &[item(offset, length, 0, 0x8001)])]);
        image.resize(400, 0);
        let by_words = resource_by_words(&image, 0x8001, 0x8001);
        assert_eq!(resource_by_number(&image, 1), by_words);
        by_words.map(|found| (found.data_at, found.data_len))
    };
    assert_eq!(with_item(300, 100, 0), Ok((300, 100)));
    assert_eq!(with_item(300, 101, 0), Err(20));
    assert_eq!(with_item(301, 100, 0), Err(20));
    // Data of length 0 at the image's end is good, one past is 20.
    assert_eq!(with_item(400, 0, 0), Ok((400, 0)));
    assert_eq!(with_item(401, 0, 0), Err(20));
    // Both are shifted, and no sum wraps.
    assert_eq!(with_item(75, 25, 2), Ok((300, 100)));
    assert_eq!(with_item(75, 26, 2), Err(20));
    assert_eq!(with_item(0xFFFF, 0xFFFF, 15), Err(20));
    assert_eq!(with_item(0, 0xFFFF, 15), Err(20));
    assert_eq!(with_item(0x0200, 0, 15), Err(20));
    assert_eq!(with_item(0, 0, 15), Ok((0, 0)));
}

#[test]
fn the_first_match_decides_also_where_it_is_20() {
    let items = [item(0xFFFF, 1, 0, 0x8001), item(0, 1, 0, 0x8001)];
    let image = image(0, &[block(0x8001, &items)]);
    assert_eq!(resource_by_words(&image, 0x8001, 0x8001), Err(20));
    assert_eq!(resource_by_number(&image, 1), Err(20));
    assert!(resource_by_number(&image, 2).is_ok());
}

#[test]
fn more_than_65_535_resources() {
    let many = vec![item(0, 1, 5, 0x8002); 65_535];
    let two = [item(1, 2, 6, 0x8001), item(2, 3, 7, 0x8002)];
    let image = image(0, &[block(0x8001, &many), block(0x8001, &two)]);
    assert_eq!(resource_by_number(&image, 65_535).unwrap().flags, 5);
    assert_eq!(resource_by_number(&image, 65_536).unwrap().flags, 6);
    assert_eq!(resource_by_number(&image, 65_537).unwrap().flags, 7);
    assert_eq!(resource_by_number(&image, 65_538), Err(8));
    let found = resource_by_words(&image, 0x8001, 0x8001).unwrap();
    assert_eq!(found.flags, 6);
}
