//! Little-endian reads at a place. A read that leaves the bytes gives `None`.
//!
//! Places and lengths are 64-bit numbers, so that no sum of them wraps.

/// The `length` bytes at place `at`, or `None` where they leave `bytes`.
///
/// Document 01: a thing leaves the image exactly when its end lies past the
/// image's end, and this holds for length 0 too.
pub fn part(bytes: &[u8], at: u64, length: u64) -> Option<&[u8]> {
    let start = usize::try_from(at).ok()?;
    let end = usize::try_from(at.checked_add(length)?).ok()?;
    bytes.get(start..end)
}

/// The byte at place `at`.
pub fn byte(bytes: &[u8], at: u64) -> Option<u8> {
    part(bytes, at, 1).map(|part| part[0])
}

/// The word at place `at`. Document 01: words are little-endian.
pub fn word(bytes: &[u8], at: u64) -> Option<u16> {
    part(bytes, at, 2).map(|part| u16::from_le_bytes([part[0], part[1]]))
}

/// The dword at place `at`, low word first.
pub fn dword(bytes: &[u8], at: u64) -> Option<u32> {
    part(bytes, at, 4).map(|part| u32::from_le_bytes([part[0], part[1], part[2], part[3]]))
}
