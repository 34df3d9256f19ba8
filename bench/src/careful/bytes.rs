//! Little-endian numbers and parts of a slice, `None` where they leave it.

/// The `length` bytes at `at`.
pub fn part(bytes: &[u8], at: usize, length: usize) -> Option<&[u8]> {
    bytes.get(at..at.checked_add(length)?)
}

/// The `N` bytes at `at`.
#[inline]
pub fn array<const N: usize>(bytes: &[u8], at: usize) -> Option<&[u8; N]> {
    bytes.get(at..)?.first_chunk()
}

/// The word at `at`.
#[inline]
pub fn word(bytes: &[u8], at: usize) -> Option<u16> {
    array(bytes, at).map(|bytes| u16::from_le_bytes(*bytes))
}
