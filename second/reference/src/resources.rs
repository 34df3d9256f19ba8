//! The resource table.

use crate::bytes::{part, word};
use crate::header::{header, Header};

/// An accepted resource.
#[derive(Debug, Clone, Copy, PartialEq, Eq)]
pub struct Resource {
    /// The type word of its block.
    pub type_: u32,
    /// The id word.
    pub id: u32,
    /// The flag word.
    pub flags: u32,
    /// Place of the data.
    pub data_at: u32,
    /// Length of the data.
    pub data_len: u32,
}

/// A resource by its number from 1, in file order, all types together.
/// Document 01, order: 18, then 8, then 20.
pub fn resource_by_number(image: &[u8], number: u32) -> Result<Resource, u32> {
    let resources = resources(image, &header(image)?)?;
    // 8: number 0 or above the count.
    let Some(index) = number.checked_sub(1) else {
        return Err(8);
    };
    let found = resources.get(index as usize).ok_or(8u32)?;
    data_inside(image, found)
}

/// A resource by its two words. Document 01, order: 18, then 19, then 20.
pub fn resource_by_words(image: &[u8], type_word: u32, id_word: u32) -> Result<Resource, u32> {
    let resources = resources(image, &header(image)?)?;
    // A query gives two words with the high bit set; a word without it finds
    // nothing. Reading: nor does a number that doesn't fit 16 bits.
    let asks = |word: u32| (0x8000..=0xFFFF).contains(&word);
    if !asks(type_word) || !asks(id_word) {
        return Err(19);
    }
    // First match in file order. It decides, also where it is 20.
    let found = resources
        .iter()
        .find(|resource| resource.type_ == type_word && resource.id == id_word)
        .ok_or(19u32)?;
    data_inside(image, found)
}

/// 20: found resource's data leaves the image. Data of length 0 at the image's
/// end is inside, one past the end is not.
fn data_inside(image: &[u8], found: &Resource) -> Result<Resource, u32> {
    match part(image, found.data_at.into(), found.data_len.into()) {
        Some(_) => Ok(*found),
        None => Err(20),
    }
}

/// The whole table to its type 0, checked before anything is searched.
/// 18: it leaves the image, or its shift is over 15.
fn resources(image: &[u8], header: &Header) -> Result<Vec<Resource>, u32> {
    // If the places at 24 and 26 are equal there are none.
    if header.resource_at == header.resident_at {
        return Ok(Vec::new());
    }
    let shift = word(image, header.resource_at).ok_or(18u32)?;
    if shift > 15 {
        return Err(18);
    }
    blocks(image, header.resource_at + 2, shift).ok_or(18)
}

/// The blocks from `at` on: type word, count word, 4 reserved bytes and 12
/// bytes for each resource. Type 0 ends the table and needs only its own 2
/// bytes. `None` where the table leaves the image.
fn blocks(image: &[u8], mut at: u64, shift: u16) -> Option<Vec<Resource>> {
    let mut resources = Vec::new();
    loop {
        let type_ = word(image, at)?;
        if type_ == 0 {
            return Some(resources);
        }
        let count = word(image, at + 2)?;
        let block = part(image, at, 8 + 12 * u64::from(count))?;
        for number in 0..u64::from(count) {
            resources.push(resource(block, 8 + 12 * number, type_, shift)?);
        }
        at += block.len() as u64;
    }
}

/// The resource at `at` of its block: offset, length, flags, id, 4 reserved.
/// Offset and length are both shifted; the shift is at most 15, so both fit.
fn resource(block: &[u8], at: u64, type_: u16, shift: u16) -> Option<Resource> {
    Some(Resource {
        type_: u32::from(type_),
        id: u32::from(word(block, at + 6)?),
        flags: u32::from(word(block, at + 4)?),
        data_at: u32::from(word(block, at)?) << shift,
        data_len: u32::from(word(block, at + 2)?) << shift,
    })
}
