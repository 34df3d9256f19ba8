//! One record of the segment table: 8, 10, 11, 9.

use super::bytes::{array, part, word};
use super::header::Header;

const ITERATED: u16 = 0x0008;
const HAS_RECORDS: u16 = 0x0100;

/// A sound segment.
pub struct Segment<'a> {
    /// The stored bytes.
    pub stored: &'a [u8],
    /// The fixup records, 8 bytes each.
    pub records: &'a [u8],
    /// Bytes in memory, 1 to 65,536.
    pub allocation: usize,
}

/// The record of a segment number: 8.
pub fn row<'a>(header: &Header<'a>, number: u32) -> Result<&'a [u8; 8], u32> {
    let index = (number as usize).checked_sub(1).ok_or(8u32)?;
    array(header.segments, 8 * index).ok_or(8)
}

/// The segment of that record: 10, 11, 9.
pub fn read<'a>(image: &'a [u8], row: &[u8; 8], shift: u16) -> Result<Segment<'a>, u32> {
    let [s0, s1, l0, l1, f0, f1, a0, a1] = *row;
    let sector = usize::from(u16::from_le_bytes([s0, s1]));
    let flags = u16::from_le_bytes([f0, f1]);
    let length = if sector == 0 { 0 } else { full([l0, l1]) };
    let allocation = full([a0, a1]);
    if flags & ITERATED != 0 {
        return Err(10);
    }
    if allocation < length {
        return Err(11);
    }
    let start = sector << shift;
    let stored = part(image, start, length).ok_or(9u32)?;
    let records = match flags & HAS_RECORDS {
        0 => &[],
        _ if sector == 0 => return Err(9),
        _ => records(image, start + length).ok_or(9u32)?,
    };
    Ok(Segment {
        stored,
        records,
        allocation,
    })
}

/// A length word, where 0 is 65,536.
fn full(bytes: [u8; 2]) -> usize {
    match u16::from_le_bytes(bytes) {
        0 => 65_536,
        length => usize::from(length),
    }
}

/// The record list at a place: a count word, then 8 bytes each.
fn records(image: &[u8], at: usize) -> Option<&[u8]> {
    let count = usize::from(word(image, at)?);
    part(image, at + 2, 8 * count)
}
