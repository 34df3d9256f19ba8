//! The entry table: checked once as a whole, then searched bundle by bundle.

use super::bytes::word;

/// Bytes of each entry in a bundle with this segment byte.
fn width(segment_byte: u8) -> usize {
    match segment_byte {
        0 => 0,
        255 => 6,
        _ => 3,
    }
}

/// Checks the whole table: 12, 14, 12, 13 for each bundle. A table of no bytes
/// is empty.
pub fn check(table: &[u8], segment_count: usize) -> Result<(), u32> {
    if table.is_empty() {
        return Ok(());
    }
    let mut rest = table;
    let mut ordinals = 0;
    loop {
        let (&count, behind) = rest.split_first().ok_or(12u32)?;
        if count == 0 {
            return Ok(());
        }
        let (&segment_byte, behind) = behind.split_first().ok_or(12u32)?;
        ordinals += usize::from(count);
        if ordinals > 65_535 {
            return Err(14);
        }
        let size = width(segment_byte) * usize::from(count);
        if behind.len() < size {
            return Err(12);
        }
        let (entries, behind) = behind.split_at(size);
        if !bundle_is_sound(segment_byte, entries, segment_count) {
            return Err(13);
        }
        rest = behind;
    }
}

/// Is each entry's segment in the table, and CDh 3Fh in each movable one?
fn bundle_is_sound(segment_byte: u8, entries: &[u8], segment_count: usize) -> bool {
    let there = |segment: u8| segment != 0 && usize::from(segment) <= segment_count;
    match segment_byte {
        0 => true,
        255 => entries
            .chunks_exact(6)
            .all(|entry| entry[1] == 0xCD && entry[2] == 0x3F && there(entry[3])),
        fixed => there(fixed),
    }
}

/// Segment and offset of an ordinal in a sound table; `None` where it is not
/// covered, or null.
pub fn find(table: &[u8], ordinal: u16) -> Option<(u8, u16)> {
    let mut rest = table;
    let mut index = usize::from(ordinal).checked_sub(1)?;
    loop {
        let [count, segment_byte, entries @ ..] = rest else {
            return None;
        };
        let count = usize::from(*count);
        let width = width(*segment_byte);
        if index < count {
            return entry(*segment_byte, entries.get(index * width..)?);
        }
        if count == 0 {
            return None;
        }
        index -= count;
        rest = entries.get(count * width..)?;
    }
}

/// The entry at the start of `bytes`.
fn entry(segment_byte: u8, bytes: &[u8]) -> Option<(u8, u16)> {
    match segment_byte {
        0 => None,
        255 => Some((*bytes.get(3)?, word(bytes, 4)?)),
        fixed => Some((fixed, word(bytes, 1)?)),
    }
}
