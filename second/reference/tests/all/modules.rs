//! The module query: 8, then 16 for its string alone.

use crate::build::*;
use reference::{module, Module};

fn build(modules: &[u16], imported: &[u8]) -> Build {
    Build {
        modules: modules.to_vec(),
        imported: imported.to_vec(),
        ..Build::default()
    }
}

fn imported_at(image: &[u8]) -> usize {
    NE + usize::from(word(image, IMPORTED))
}

#[test]
fn a_reference_is_a_place_in_the_imported_names() {
    let image = build(&[5, 1], b"\x00\x03GDI\x04USER").image();
    let at = imported_at(&image) as u32;
    let user = Module {
        text_at: at + 6,
        text_len: 4,
    };
    let gdi = Module {
        text_at: at + 2,
        text_len: 3,
    };
    assert_eq!(module(&image, 1), Ok(user));
    assert_eq!(module(&image, 2), Ok(gdi));
    for number in [0, 3, 65_537, u32::MAX] {
        assert_eq!(module(&image, number), Err(8));
    }
}

#[test]
fn no_modules() {
    let image = build(&[], b"\x03GDI").image();
    assert_eq!(module(&image, 0), Err(8));
    assert_eq!(module(&image, 1), Err(8));
}

#[test]
fn an_unsound_string() {
    let mut image = build(&[0, 1], b"\x00\x04USER").image();
    // Cut where the string ends, so that nothing else lies behind it.
    image.truncate(imported_at(&image) + 6);
    assert_eq!(module(&image, 1), Err(16));
    assert!(module(&image, 2).is_ok());
    // It leaves the image by one byte.
    image.pop();
    assert_eq!(module(&image, 2), Err(16));
    // Its length byte is at the end, and past it.
    image.truncate(imported_at(&image) + 1);
    assert_eq!(module(&image, 2), Err(16));
    image.truncate(imported_at(&image));
    assert_eq!(module(&image, 2), Err(16));
}

#[test]
fn name_lists_and_the_entry_table_are_not_looked_at() {
    let mut build = build(&[0], b"\x03GDI");
    build.entry = vec![1];
    build.nonresident = vec![200];
    let mut image = build.image();
    put_word(&mut image, RESIDENT, 0xFFFF);
    assert!(module(&image, 1).is_ok());
}

#[test]
fn string_places_past_16_bits() {
    let mut image = build(&[0xFFF0], &[]).image();
    put_word(&mut image, IMPORTED, 0xFFFF);
    let at = NE + 0xFFFF + 0xFFF0;
    image.resize(at, 0);
    image.extend(b"\x03GDI");
    let gdi = Module {
        text_at: at as u32 + 1,
        text_len: 3,
    };
    assert_eq!(module(&image, 1), Ok(gdi));
    image.pop();
    assert_eq!(module(&image, 1), Err(16));
}

#[test]
fn string_places_near_the_largest_image_end() {
    // The NE header near the end of the largest image.
    let mut image = vec![0; 16_777_216];
    let place = image.len() - 128;
    image[..2].copy_from_slice(b"MZ");
    put_dword(&mut image, 0x3C, place as u32);
    image[place..place + 2].copy_from_slice(b"NE");
    put_word(&mut image, place + 0x1E, 1);
    put_word(&mut image, place + 0x28, 64);
    put_word(&mut image, place + 0x2A, 66);
    put_word(&mut image, place + 64, 58);
    let end = image.len();
    image[end - 4..].copy_from_slice(b"\x03GDI");
    assert_eq!(module(&image, 1).unwrap().text_at as usize, end - 3);
    image[end - 4] = 4;
    assert_eq!(module(&image, 1), Err(16));
}
