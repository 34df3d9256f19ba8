//! The entry table: bundles of ordinals.

use crate::bytes::{byte, part, word};
use crate::header::{header, Header};

/// An accepted ordinal's entry.
#[derive(Debug, Clone, Copy, PartialEq, Eq)]
pub struct Entry {
    /// Segment number.
    pub segment: u32,
    /// Offset in the segment.
    pub offset: u32,
    /// Flag byte, which isn't tested.
    pub flag: u32,
}

/// What a bundle's segment byte says.
enum Bundle {
    /// 0: ordinals are used up, no bytes follow.
    Null,
    /// 255: 6 bytes each (flag, CDh 3Fh, segment, offset word).
    Movable,
    /// Any other byte is a fixed segment number: 3 bytes each (flag, offset
    /// word).
    Fixed(u8),
}

impl Bundle {
    fn of(segment_byte: u8) -> Bundle {
        match segment_byte {
            0 => Bundle::Null,
            255 => Bundle::Movable,
            number => Bundle::Fixed(number),
        }
    }

    /// Bytes for each ordinal.
    fn width(&self) -> u64 {
        match self {
            Bundle::Null => 0,
            Bundle::Movable => 6,
            Bundle::Fixed(_) => 3,
        }
    }

    /// The entry at `at` of the table, `None` inside for a null ordinal.
    /// 12: the bytes are missing; 13: segment not in the segment table, or no
    /// CDh 3Fh.
    fn entry(&self, table: &[u8], at: u64, segments: u64) -> Result<Option<Entry>, u32> {
        let (segment, offset_at) = match self {
            Bundle::Null => return Ok(None),
            Bundle::Fixed(number) => (*number, at + 1),
            Bundle::Movable => {
                if part(table, at + 1, 2) != Some([0xCD, 0x3F].as_slice()) {
                    return Err(13);
                }
                (byte(table, at + 3).ok_or(12u32)?, at + 4)
            }
        };
        // Reading: a movable entry may name segment 255 where the table has
        // that many; segment 0 is 13.
        if segment == 0 || u64::from(segment) > segments {
            return Err(13);
        }
        Ok(Some(Entry {
            segment: u32::from(segment),
            offset: u32::from(word(table, offset_at).ok_or(12u32)?),
            flag: u32::from(byte(table, at).ok_or(12u32)?),
        }))
    }
}

/// The ordinal query. Document 01, order: the whole table is walked first,
/// then 15.
pub fn ordinal(image: &[u8], number: u32) -> Result<Entry, u32> {
    let header = header(image)?;
    let entries = entries(image, &header)?;
    find(&entries, number).ok_or(15)
}

/// The entry of an ordinal; ordinals count from 1. `None` where the ordinal is
/// not covered (0 too), or null.
pub fn find(entries: &[Option<Entry>], number: u32) -> Option<Entry> {
    let index = usize::try_from(number.checked_sub(1)?).ok()?;
    *entries.get(index)?
}

/// Walks the whole entry table. One member for each ordinal, `None` where it
/// is null. Refusals 12 to 14, bundle by bundle.
pub fn entries(image: &[u8], header: &Header) -> Result<Vec<Option<Entry>>, u32> {
    let mut entries = Vec::new();
    // Document 01: a table of size 0 is empty and its place isn't looked at.
    if header.entry_bytes == 0 {
        return Ok(entries);
    }
    // The table lies in the image by check 7.
    let table = part(image, header.entry_at, header.entry_bytes).ok_or(7u32)?;
    let mut at = 0;
    loop {
        // Per bundle: 12 for a missing count or segment byte. A count of 0
        // ends the table, and later bytes aren't read.
        let count = byte(table, at).ok_or(12u32)?;
        if count == 0 {
            return Ok(entries);
        }
        let bundle = Bundle::of(byte(table, at + 1).ok_or(12u32)?);
        at += 2;
        // Then 14: over 65,535 ordinals. Null ordinals count too.
        if entries.len() + usize::from(count) > 65_535 {
            return Err(14);
        }
        // Then 12 for missing entry bytes, all of them before the first 13.
        part(table, at, bundle.width() * u64::from(count)).ok_or(12u32)?;
        // Then 13 by entry.
        for _ in 0..count {
            entries.push(bundle.entry(table, at, header.segment_count)?);
            at += bundle.width();
        }
    }
}
