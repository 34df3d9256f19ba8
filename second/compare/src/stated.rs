//! What an image states about itself, read without any check.
//!
//! Requests are chosen by it; no answer depends on it.

mod bundles;
mod names;
mod resources;
mod segments;

pub use bundles::{bundles, Bundle};
pub use names::{names, Name};
pub use resources::{resources, Resource};
pub use segments::segment;

/// The segment count; 0 if there is no such word.
pub fn segment_count(image: &[u8]) -> u32 {
    ne_word(image, 0x1C).unwrap_or(0)
}

/// The module count; 0 if there is no such word.
pub fn module_count(image: &[u8]) -> u32 {
    ne_word(image, 0x1E).unwrap_or(0)
}

/// A word of the NE header.
pub fn ne_word(image: &[u8], offset: usize) -> Option<u32> {
    word(image, header_at(image)?.checked_add(offset)?)
}

/// The place of the NE header.
pub fn header_at(image: &[u8]) -> Option<usize> {
    dword(image, 0x3C)
}

/// The place that the word at this offset of the NE header gives.
pub fn place(image: &[u8], offset: usize) -> Option<usize> {
    header_at(image)?.checked_add(ne_word(image, offset)? as usize)
}

/// The bytes from that place on.
fn table(image: &[u8], offset: usize) -> Option<&[u8]> {
    image.get(place(image, offset)?..)
}

/// The nonresident names' place, which counts from the file's start.
pub fn nonresident_place(image: &[u8]) -> Option<usize> {
    dword(image, header_at(image)?.checked_add(0x2C)?)
}

/// Their bytes.
pub fn nonresident_size(image: &[u8]) -> Option<usize> {
    Some(ne_word(image, 0x20)? as usize)
}

pub fn word(bytes: &[u8], at: usize) -> Option<u32> {
    let word = bytes.get(at..at.checked_add(2)?)?;
    Some(u32::from(word[0]) | u32::from(word[1]) << 8)
}

fn dword(bytes: &[u8], at: usize) -> Option<usize> {
    let dword = bytes.get(at..at.checked_add(4)?)?.try_into().ok()?;
    usize::try_from(u32::from_le_bytes(dword)).ok()
}

/// The entry table, or the part of it that lies in the image.
pub fn entry_table(image: &[u8]) -> Option<&[u8]> {
    let behind = table(image, 0x04)?;
    let size = ne_word(image, 0x06)? as usize;
    Some(&behind[..size.min(behind.len())])
}
