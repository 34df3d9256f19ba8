//! The header query.

use crate::build::*;
use crate::header::full;
use reference::{tables, Tables};

/// Every field has a number of its own.
#[test]
fn every_field() {
    let mut image = full().image();
    image.resize(4_096, 0);
    for (field, value) in [
        (SEGMENTS, 0x0101),
        (SEGMENT_COUNT, 2),
        (MODULES, 0x0203),
        (MODULE_COUNT, 4),
        (ENTRY, 0x0305),
        (ENTRY_BYTES, 6),
        (NONRESIDENT_BYTES, 8),
        (RESIDENT, 0x0409),
        (IMPORTED, 0x050A),
        (RESOURCES, 0x060B),
        (SHIFT, 9),
    ] {
        put_word(&mut image, field, value);
    }
    put_dword(&mut image, NONRESIDENT, 0x0707);
    let expected = Tables {
        header_at: 64,
        unit: 512,
        segments_at: 0x0141,
        segments: 2,
        modules_at: 0x0243,
        modules: 4,
        entries_at: 0x0345,
        entries_len: 6,
        nonresident_at: 0x0707,
        nonresident_len: 8,
        resident_at: 0x0449,
        imported_at: 0x054A,
        resources_at: 0x064B,
    };
    assert_eq!(tables(&image), Ok(expected));
}

#[test]
fn units() {
    let mut image = Build::default().image();
    for shift in 0..16 {
        put_word(&mut image, SHIFT, shift);
        assert_eq!(tables(&image).map(|tables| tables.unit), Ok(1 << shift));
    }
}

/// Empty tables and tables without a size may stand outside.
#[test]
fn places_outside() {
    let mut image = vec![0; 16_777_216];
    let place = image.len() - 64;
    image[..2].copy_from_slice(b"MZ");
    put_dword(&mut image, 0x3C, place as u32);
    image[place..].fill(0xFF);
    image[place..place + 2].copy_from_slice(b"NE");
    for empty in [
        ENTRY_BYTES,
        SEGMENT_COUNT,
        MODULE_COUNT,
        NONRESIDENT_BYTES,
        SHIFT,
    ] {
        put_word(&mut image, place + empty - NE, 0);
    }
    let place = place as u32;
    let expected = Tables {
        header_at: place,
        unit: 1,
        segments_at: place + 65_535,
        segments: 0,
        modules_at: place + 65_535,
        modules: 0,
        entries_at: place + 65_535,
        entries_len: 0,
        nonresident_at: 0xFFFF_FFFF,
        nonresident_len: 0,
        resident_at: place + 65_535,
        imported_at: place + 65_535,
        resources_at: place + 65_535,
    };
    assert_eq!(tables(&image), Ok(expected));
}
