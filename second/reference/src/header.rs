//! The MZ and NE headers: refusals 1 to 7, which every call does first.

use crate::bytes::{dword, part, word};

/// The fields of the NE header that are read. Every place here is already
/// counted from the file's start.
pub struct Header {
    /// The dword at 3Ch of the image: the NE header itself.
    pub header_at: u64,
    /// NE 04: the entry table.
    pub entry_at: u64,
    /// NE 06: the entry table's bytes.
    pub entry_bytes: u64,
    /// NE 1C: the segment count.
    pub segment_count: u64,
    /// NE 1E: the module count.
    pub module_count: u64,
    /// NE 20: the nonresident names' bytes.
    pub nonresident_bytes: u64,
    /// NE 22: the segment table, 8 bytes for each segment.
    pub segment_at: u64,
    /// NE 24: the resource table.
    pub resource_at: u64,
    /// NE 26: the resident names.
    pub resident_at: u64,
    /// NE 28: the module references, 2 bytes for each module.
    pub module_at: u64,
    /// NE 2A: the imported names.
    pub imported_at: u64,
    /// NE 2C: the nonresident names, from the file's start in the image too.
    pub nonresident_at: u64,
    /// NE 32: the alignment shift, 0 to 15. Reading: shift 0 is times 1.
    pub shift: u16,
}

/// Document 01: each call does 1 to 7 by number.
pub fn header(image: &[u8]) -> Result<Header, u32> {
    // 1: image under 64 bytes.
    if image.len() < 64 {
        return Err(1);
    }
    // 2: image over 16,777,216.
    if image.len() > 16_777_216 {
        return Err(2);
    }
    // 3: "MZ" at 0; "ZM" is refused. The word at 18h isn't tested.
    if !image.starts_with(b"MZ") {
        return Err(3);
    }
    // 4: the dword at 3Ch places the NE header, at least 64, with 64 bytes
    // inside the image.
    let place = u64::from(dword(image, 0x3C).ok_or(4u32)?);
    if place < 64 {
        return Err(4);
    }
    let ne = part(image, place, 64).ok_or(4u32)?;
    // 5: no "NE".
    if !ne.starts_with(b"NE") {
        return Err(5);
    }
    // The 64 bytes are there, so every field is read and no `None` comes.
    let header = fields(ne, place).ok_or(4u32)?;
    // 6: alignment shift over 15. Reading: also with no segments.
    if header.shift > 15 {
        return Err(6);
    }
    // 7: segment, module, entry or nonresident table leaves the image.
    if !header.tables_inside(image) {
        return Err(7);
    }
    Ok(header)
}

/// Reads the fields out of the NE header's 64 bytes. Document 01: the
/// nonresident names' place is from the file's start, all other table places
/// count from the NE header. No other field is tested.
fn fields(ne: &[u8], place: u64) -> Option<Header> {
    let number = |at| word(ne, at).map(u64::from);
    let table = |at| number(at).map(|from_header| place + from_header);
    Some(Header {
        header_at: place,
        entry_at: table(0x04)?,
        entry_bytes: number(0x06)?,
        segment_count: number(0x1C)?,
        module_count: number(0x1E)?,
        nonresident_bytes: number(0x20)?,
        segment_at: table(0x22)?,
        resource_at: table(0x24)?,
        resident_at: table(0x26)?,
        module_at: table(0x28)?,
        imported_at: table(0x2A)?,
        nonresident_at: u64::from(dword(ne, 0x2C)?),
        shift: word(ne, 0x32)?,
    })
}

impl Header {
    /// Do the four sized tables lie in the image?
    fn tables_inside(&self, image: &[u8]) -> bool {
        let tables = [
            (self.segment_at, 8 * self.segment_count),
            (self.module_at, 2 * self.module_count),
            (self.entry_at, self.entry_bytes),
            (self.nonresident_at, self.nonresident_bytes),
        ];
        // Document 01: a table of size 0 is empty and its place isn't looked at.
        tables
            .iter()
            .all(|&(at, size)| size == 0 || part(image, at, size).is_some())
    }
}
