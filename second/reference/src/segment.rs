//! The segment table: one record of it, and what lies at its place.

use crate::bytes::{part, word};
use crate::header::{header, Header};

/// An accepted segment.
#[derive(Debug, Clone, Copy, PartialEq, Eq)]
pub struct Segment {
    /// Place of the stored bytes; 0 with sector 0.
    pub start: u32,
    /// Stored length, 0 to 65,536.
    pub stored: u32,
    /// The flag word.
    pub flags: u32,
    /// Allocation, 1 to 65,536.
    pub allocation: u32,
    /// Number of records after the stored bytes.
    pub records: u32,
}

/// Flag 0008h: iterated.
const ITERATED: u16 = 0x0008;
/// Flag 0100h: records follow.
const RECORDS_FOLLOW: u16 = 0x0100;

/// A segment record by its words, before anything at its place is looked at.
pub struct Row {
    sector: u16,
    start: u32,
    stored: u32,
    flags: u16,
    allocation: u32,
}

/// The segment query. Document 01, order: 8, 10, 11, 9 after 1 to 7.
/// Only the segment asked for is checked.
pub fn segment(image: &[u8], number: u32) -> Result<Segment, u32> {
    let header = header(image)?;
    let row = row(image, &header, number)?;
    sound(image, &row)
}

/// Record `number` of the segment table, 8 bytes: sector, length, flags,
/// allocation. 8: number 0 or above the count.
pub fn row(image: &[u8], header: &Header, number: u32) -> Result<Row, u32> {
    let number = u64::from(number);
    if number == 0 || number > header.segment_count {
        return Err(8);
    }
    let at = header.segment_at + 8 * (number - 1);
    words(image, at, header.shift).ok_or(7)
}

/// The four words at `at`. The table lies in the image by check 7, so no
/// `None` comes.
fn words(image: &[u8], at: u64, shift: u16) -> Option<Row> {
    let sector = word(image, at)?;
    let length = word(image, at + 2)?;
    // Sector 0: no stored bytes, whatever the length says. Otherwise length 0
    // is 65,536.
    let stored = if sector == 0 { 0 } else { full(length) };
    Some(Row {
        sector,
        // Start = sector times 2^shift. The shift is at most 15.
        start: u32::from(sector) << shift,
        stored,
        flags: word(image, at + 4)?,
        // Allocation 0 is 65,536.
        allocation: full(word(image, at + 6)?),
    })
}

/// A length word where 0 is 65,536.
fn full(word: u16) -> u32 {
    match word {
        0 => 65_536,
        length => u32::from(length),
    }
}

/// Refusals 10, 11 and 9 of one segment, in that order.
pub fn sound(image: &[u8], row: &Row) -> Result<Segment, u32> {
    // 10: iterated.
    if row.flags & ITERATED != 0 {
        return Err(10);
    }
    // 11: allocation under stored length.
    if row.allocation < row.stored {
        return Err(11);
    }
    // 9: stored bytes or record list leave the image; records with sector 0.
    if part(image, u64::from(row.start), u64::from(row.stored)).is_none() {
        return Err(9);
    }
    let records = record_count(image, row).ok_or(9u32)?;
    Ok(Segment {
        start: row.start,
        stored: row.stored,
        flags: u32::from(row.flags),
        allocation: row.allocation,
        records: u32::from(records),
    })
}

/// How many records follow, or `None` for refusal 9. Document 01: the record
/// list starts right after the stored bytes: a count word, then 8 bytes each.
fn record_count(image: &[u8], row: &Row) -> Option<u16> {
    // Without 0100h the count is 0 and nothing behind is looked at.
    if row.flags & RECORDS_FOLLOW == 0 {
        return Some(0);
    }
    // Reading: flag 0100h with sector 0 is 9, whatever else is there.
    if row.sector == 0 {
        return None;
    }
    let list = u64::from(row.start) + u64::from(row.stored);
    let count = word(image, list)?;
    part(image, list + 2, 8 * u64::from(count))?;
    Some(count)
}

impl Segment {
    /// The stored bytes of this accepted segment.
    pub(crate) fn stored_bytes<'a>(&self, image: &'a [u8]) -> &'a [u8] {
        part(image, u64::from(self.start), u64::from(self.stored)).unwrap_or(&[])
    }

    /// The records of this accepted segment, in file order.
    pub(crate) fn record_bytes<'a>(&self, image: &'a [u8]) -> impl Iterator<Item = [u8; 8]> + 'a {
        let first = u64::from(self.start) + u64::from(self.stored) + 2;
        let list = part(image, first, 8 * u64::from(self.records)).unwrap_or(&[]);
        list.chunks_exact(8).map(|chunk| {
            let mut record = [0; 8];
            record.copy_from_slice(chunk);
            record
        })
    }
}
