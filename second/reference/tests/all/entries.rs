//! The entry table: 12 to 15.

use crate::build::*;
use crate::examples::{two_segments, P10};
use reference::{ordinal, Entry};

/// Ordinal 1's answer with this table and two segments.
fn first(entry: &[u8]) -> Result<Entry, u32> {
    ordinal(&two_segments(entry), 1)
}

const GOOD: Result<Entry, u32> = Ok(Entry {
    segment: 2,
    offset: 0x1234,
    flag: 0xFF,
});

#[test]
fn fixed_and_movable() {
    assert_eq!(first(&[1, 2, 0xFF, 0x34, 0x12, 0]), GOOD);
    let movable = [1, 255, 0xFF, 0xCD, 0x3F, 2, 0x34, 0x12, 0];
    assert_eq!(first(&movable), GOOD);
}

#[test]
fn empty_tables() {
    assert_eq!(first(&[]), Err(15));
    assert_eq!(first(&[0]), Err(15));
    // Bytes after the end byte aren't read.
    assert_eq!(first(&[0, 1, 200, 9]), Err(15));
    assert_eq!(first(&[1, 2, 0xFF, 0x34, 0x12, 0, 7]), GOOD);
}

#[test]
fn refusal_12_at_every_cut() {
    for length in 1..P10.len() {
        assert_eq!(first(&P10[..length]), Err(12), "{length}");
    }
    assert!(first(&P10).is_ok());
}

#[test]
fn the_tables_limit_is_its_byte_count() {
    // The end byte stands right after the table, in the image.
    let mut image = two_segments(&[1, 2, 0xFF, 0x34, 0x12, 0]);
    assert_eq!(ordinal(&image, 1), GOOD);
    put_word(&mut image, ENTRY_BYTES, 5);
    assert_eq!(ordinal(&image, 1), Err(12));
}

#[test]
fn refusal_13_segment_not_in_the_table() {
    assert_eq!(first(&[1, 3, 0, 0, 0, 0]), Err(13));
    assert_eq!(first(&[1, 254, 0, 0, 0, 0]), Err(13));
    for segment in [0, 3, 254, 255] {
        assert_eq!(
            first(&[1, 255, 0, 0xCD, 0x3F, segment, 0, 0, 0]),
            Err(13),
            "{segment}"
        );
    }
    // The marks of a movable entry.
    assert_eq!(first(&[1, 255, 0, 0xCC, 0x3F, 1, 0, 0, 0]), Err(13));
    assert_eq!(first(&[1, 255, 0, 0xCD, 0x3E, 1, 0, 0, 0]), Err(13));
    assert_eq!(first(&[1, 255, 0, 0x3F, 0xCD, 1, 0, 0, 0]), Err(13));
    // CDh 3Fh isn't looked for in fixed bundles.
    assert!(first(&[1, 1, 0, 0, 0, 0]).is_ok());
}

#[test]
fn movable_entry_may_name_segment_255() {
    let mut build = Build {
        segments: vec![plain(&[1]); 255],
        entry: vec![1, 255, 9, 0xCD, 0x3F, 255, 0, 0, 0],
        ..Build::default()
    };
    assert_eq!(ordinal(&build.image(), 1).unwrap().segment, 255);
    build.segments.pop();
    assert_eq!(ordinal(&build.image(), 1), Err(13));
    // A fixed bundle of segment 254 is good here.
    build.entry = vec![1, 254, 9, 0, 0, 0];
    assert_eq!(ordinal(&build.image(), 1).unwrap().segment, 254);
    build.segments.pop();
    assert_eq!(ordinal(&build.image(), 1), Err(13));
}

#[test]
fn an_early_13_beats_a_later_12() {
    assert_eq!(first(&[1, 3, 0, 0, 0, 1]), Err(13));
    assert_eq!(first(&[1, 3, 0, 0, 0]), Err(13));
    // Within a bundle all entry bytes come before the first 13.
    assert_eq!(first(&[2, 3, 0, 0, 0, 0, 0]), Err(12));
    assert_eq!(first(&[2, 3, 0, 0, 0, 0, 0, 0]), Err(13));
    let movable = [2, 255, 0, 0, 0, 0, 0, 0, 0, 0xCD, 0x3F, 1, 0];
    assert_eq!(first(&movable), Err(12));
}

#[test]
fn the_whole_table_is_walked_before_15() {
    let unsound = [1, 1, 0, 0, 0, 1, 3, 0, 0, 0, 0];
    for number in [0, 1, 2, 3, 70_000] {
        assert_eq!(ordinal(&two_segments(&unsound), number), Err(13));
    }
}

/// Bundles of null ordinals, `count` altogether.
fn nulls(count: usize) -> Vec<u8> {
    let mut table = [255, 0].repeat(count / 255);
    let rest = (count % 255) as u8;
    if rest > 0 {
        table.extend([rest, 0]);
    }
    table
}

#[test]
fn refusal_14_over_65_535_ordinals() {
    // 65,535 is 257 times 255. Null bundles count.
    let mut table = nulls(65_535);
    assert_eq!(first(&table), Err(12));
    table.push(0);
    assert_eq!(first(&table), Err(15));
    assert_eq!(ordinal(&two_segments(&table), 65_535), Err(15));
    table.pop();
    table.extend([1, 0, 0]);
    assert_eq!(first(&table), Err(14));
    // The last of 65,535 is found.
    let mut table = nulls(65_534);
    table.extend([1, 2, 0xFF, 0x34, 0x12, 0]);
    assert_eq!(ordinal(&two_segments(&table), 65_535), GOOD);
    assert_eq!(ordinal(&two_segments(&table), 65_536), Err(15));
}

#[test]
fn refusal_14_stands_between_the_two_12s() {
    let mut table = nulls(65_535);
    // A missing segment byte is 12 before 14.
    table.push(1);
    assert_eq!(first(&table), Err(12));
    // Missing entry bytes come after 14, and so does 13.
    table.push(1);
    assert_eq!(first(&table), Err(14));
    let last = table.len() - 1;
    table[last] = 3;
    table.extend([0, 0, 0, 0]);
    assert_eq!(first(&table), Err(14));
}
