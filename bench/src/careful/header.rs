//! The MZ and NE headers: 1 to 7.

use super::bytes::{array, part};

/// What preparing needs of the NE header.
pub struct Header<'a> {
    /// The segment table, 8 bytes for each segment.
    pub segments: &'a [u8],
    /// The segment count.
    pub segment_count: usize,
    /// The module count.
    pub module_count: u16,
    /// The entry table's bytes.
    pub entries: &'a [u8],
    /// The place of the imported names.
    pub imported_names: usize,
    /// The alignment shift, 0 to 15.
    pub shift: u16,
}

/// The fields of a sound header.
pub fn read(image: &[u8]) -> Result<Header<'_>, u32> {
    let (place, ne) = ne_header(image)?;
    let word = |at| u16::from_le_bytes([ne[at], ne[at + 1]]);
    let dword = |at| u32::from(word(at)) | u32::from(word(at + 2)) << 16;
    let shift = word(0x32);
    if shift > 15 {
        return Err(6);
    }
    let segment_count = usize::from(word(0x1C));
    let table = |at, size| sized(image, place + usize::from(word(at)), size);
    let header = Header {
        segments: table(0x22, 8 * segment_count)?,
        segment_count,
        module_count: word(0x1E),
        entries: table(0x04, usize::from(word(0x06)))?,
        imported_names: place + usize::from(word(0x2A)),
        shift,
    };
    table(0x28, 2 * usize::from(header.module_count))?;
    sized(image, dword(0x2C) as usize, usize::from(word(0x20)))?;
    Ok(header)
}

/// The NE header and its place: 1 to 5.
fn ne_header(image: &[u8]) -> Result<(usize, &[u8; 64]), u32> {
    let mz: &[u8; 64] = image.first_chunk().ok_or(1u32)?;
    if image.len() > 16_777_216 {
        return Err(2);
    }
    if !mz.starts_with(b"MZ") {
        return Err(3);
    }
    let place = u32::from_le_bytes([mz[0x3C], mz[0x3D], mz[0x3E], mz[0x3F]]) as usize;
    if place < 64 {
        return Err(4);
    }
    let ne: &[u8; 64] = array(image, place).ok_or(4u32)?;
    if !ne.starts_with(b"NE") {
        return Err(5);
    }
    Ok((place, ne))
}

/// A table with a size of its own: 7 where it leaves the image. The place of an
/// empty one isn't looked at.
fn sized(image: &[u8], at: usize, size: usize) -> Result<&[u8], u32> {
    match size {
        0 => Ok(&[]),
        _ => part(image, at, size).ok_or(7),
    }
}
