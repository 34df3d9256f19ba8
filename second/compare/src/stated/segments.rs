//! One record of the segment table, with its fixup records.

use super::{ne_word, place, word};

pub struct Segment {
    /// The place of the stored bytes.
    pub start: usize,
    pub stored: usize,
    pub allocation: usize,
    /// How many fixup records it says that it has.
    pub records: usize,
}

/// The segment of a number, if its record is there.
pub fn segment(image: &[u8], number: u32) -> Option<Segment> {
    let index = number.checked_sub(1)? as usize;
    let at = place(image, 0x22)?.checked_add(8 * index)?;
    let sector = word(image, at)? as usize;
    let (length, flags) = (word(image, at + 2)?, word(image, at + 4)?);
    let start = sector << ne_word(image, 0x32)?.min(15);
    let stored = match sector {
        0 => 0,
        _ => whole(length),
    };
    let records = match flags & 0x0100 {
        0 => 0,
        _ => word(image, start + stored).unwrap_or(0),
    };
    Some(Segment {
        start,
        stored,
        allocation: whole(word(image, at + 6)?),
        records: records as usize,
    })
}

/// 0 is 65,536.
fn whole(length: u32) -> usize {
    match length {
        0 => 65_536,
        _ => length as usize,
    }
}

impl Segment {
    /// The stored bytes that lie in the image.
    pub fn stored_bytes<'a>(&self, image: &'a [u8]) -> &'a [u8] {
        let behind = image.get(self.start..).unwrap_or_default();
        &behind[..self.stored.min(behind.len())]
    }

    /// The fixup records that lie in the image.
    pub fn record_bytes(&self, image: &[u8]) -> Vec<[u8; 8]> {
        let behind = image.get(self.start + self.stored + 2..);
        let records = behind.unwrap_or_default().chunks_exact(8);
        let read = |bytes: &[u8]| std::array::from_fn(|index| bytes[index]);
        records.take(self.records).map(read).collect()
    }
}
