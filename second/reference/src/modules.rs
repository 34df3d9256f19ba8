//! Module references and the strings in the imported names.

use crate::bytes::{byte, part, word};
use crate::header::{header, Header};

/// An accepted module reference, or any sound string in the imported names.
#[derive(Debug, Clone, Copy, PartialEq, Eq)]
pub struct Module {
    /// Place of the first text byte.
    pub text_at: u32,
    /// Text length, 1 to 255.
    pub text_len: u32,
}

/// The module query. Document 01, order: 8, then 16 for its string alone.
/// Name lists and other modules' strings aren't looked at.
pub fn module(image: &[u8], number: u32) -> Result<Module, u32> {
    let header = header(image)?;
    let number = u64::from(number);
    // 8: number 0 or above the count.
    if number == 0 || number > header.module_count {
        return Err(8);
    }
    // Module reference n is a word, a place in the imported names. The table
    // lies in the image by check 7.
    let reference = word(image, header.module_at + 2 * (number - 1)).ok_or(7u32)?;
    imported_string(image, &header, reference).ok_or(16)
}

/// The string at `place`, counted from the imported names: a length byte and
/// text. `None` where it is unsound: empty, or leaving the image.
pub fn imported_string(image: &[u8], header: &Header, place: u16) -> Option<Module> {
    let at = header.imported_at + u64::from(place);
    let length = byte(image, at)?;
    if length == 0 {
        return None;
    }
    part(image, at + 1, u64::from(length))?;
    Some(Module {
        text_at: u32::try_from(at + 1).ok()?,
        text_len: u32::from(length),
    })
}
