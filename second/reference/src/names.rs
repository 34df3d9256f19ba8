//! The resident and nonresident names.

use crate::bytes::{byte, part, word};
use crate::header::{header, Header};

/// An accepted name.
#[derive(Debug, Clone, Copy, PartialEq, Eq)]
pub struct Name {
    /// Number from 1, resident list first, first strings included.
    pub number: u32,
    /// Place of the first text byte.
    pub text_at: u32,
    /// Text length, 1 to 255.
    pub text_len: u32,
    /// The ordinal word after the text.
    pub ordinal: u32,
}

/// Both lists. The numbers of the nonresident names go on from the resident.
struct Lists {
    resident: Vec<Name>,
    nonresident: Vec<Name>,
}

/// A name by its number. Document 01, order: both lists are checked, 16,
/// then 8.
pub fn name_by_number(image: &[u8], number: u32) -> Result<Name, u32> {
    let lists = lists(image, &header(image)?)?;
    let Some(index) = number.checked_sub(1) else {
        return Err(8);
    };
    let mut all = lists.resident.iter().chain(&lists.nonresident);
    all.nth(index as usize).copied().ok_or(8)
}

/// A name by its exact bytes. Document 01, order: both lists are checked, 16,
/// then 17.
pub fn name_by_bytes(image: &[u8], name: &[u8]) -> Result<Name, u32> {
    let lists = lists(image, &header(image)?)?;
    // The first match: resident from the second string on, then nonresident
    // from the second on. A listed text has 1 to 255 bytes, so an empty or
    // over-long name isn't found.
    let resident = lists.resident.iter().skip(1);
    let nonresident = lists.nonresident.iter().skip(1);
    resident
        .chain(nonresident)
        .find(|held| part(image, held.text_at.into(), held.text_len.into()) == Some(name))
        .copied()
        .ok_or(17)
}

/// Checks and reads both lists; 16 where either is unsound.
fn lists(image: &[u8], header: &Header) -> Result<Lists, u32> {
    // The resident list has no size: it ends inside the image.
    let resident = list(image, header.resident_at, 1).ok_or(16u32)?;
    Ok(Lists {
        nonresident: nonresident(image, header, resident.len()).ok_or(16u32)?,
        resident,
    })
}

/// The nonresident list, which ends inside its byte count. A nonresident table
/// of size 0 is empty and sound, and its place isn't looked at.
fn nonresident(image: &[u8], header: &Header, before: usize) -> Option<Vec<Name>> {
    if header.nonresident_bytes == 0 {
        return Some(Vec::new());
    }
    let end = header.nonresident_at + header.nonresident_bytes;
    let limited = part(image, 0, end)?;
    list(limited, header.nonresident_at, before as u32 + 1)
}

/// The list at `at`, numbered from `number` on; `None` where it is unsound.
/// Document 01: length byte, text, ordinal word; length 0 ends the list. All
/// of them, the end byte too, lie in `limited`, whose places are the image's.
fn list(limited: &[u8], mut at: u64, mut number: u32) -> Option<Vec<Name>> {
    let mut names = Vec::new();
    loop {
        let length = byte(limited, at)?;
        if length == 0 {
            return Some(names);
        }
        let text_at = at + 1;
        let ordinal_at = text_at + u64::from(length);
        names.push(Name {
            number,
            text_at: u32::try_from(text_at).ok()?,
            text_len: u32::from(length),
            ordinal: u32::from(word(limited, ordinal_at)?),
        });
        at = ordinal_at + 2;
        number += 1;
    }
}
