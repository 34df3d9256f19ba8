//! Whether a table is sound as a whole, and how many blocks the resource table
//! has.

use parchgable::{Header, Image, Refusal};

/// The entry table is walked for whatever ordinal, and none has the ordinal 0.
pub fn entries(image: Image) -> Result<(), Refusal> {
    unless(image.ordinal(0), Refusal::NoSuchOrdinal)
}

/// Both name lists are checked for whatever number, and none has the number 0.
pub fn names(image: Image) -> Result<(), Refusal> {
    unless(image.name(0), Refusal::NoSuchNumber)
}

/// The resource table is checked for whatever number, and none has the number 0.
pub fn resources(image: Image) -> Result<(), Refusal> {
    unless(image.resource(0), Refusal::NoSuchNumber)
}

/// A table is sound if only this refusal comes.
fn unless<T>(answer: Result<T, Refusal>, expected: Refusal) -> Result<(), Refusal> {
    match answer {
        Err(refusal) if refusal != expected => Err(refusal),
        _ => Ok(()),
    }
}

/// The blocks of a resource table that is sound.
///
/// A resource is found by its number in a step for each block, so this tells how
/// much work all of them are, and nothing else rests on it.
pub fn blocks_of_resources(image: Image, header: &Header) -> u64 {
    let word = |at: usize| match image.bytes().get(at..at + 2) {
        Some(bytes) => usize::from(bytes[0]) + 256 * usize::from(bytes[1]),
        None => 0,
    };
    if header.resources_at == header.resident_at {
        return 0;
    }
    let mut at = header.resources_at as usize + 2;
    let mut blocks = 0;
    while word(at) != 0 {
        blocks += 1;
        at += 8 + 12 * word(at + 2);
    }
    blocks
}
