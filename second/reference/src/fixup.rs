//! One fixup record: its fields, its target, and the bytes it writes.

use crate::entry::Entry;
use crate::header::Header;
use crate::modules::imported_string;

/// What a record puts at a site, by the type's low four bits.
#[derive(Clone, Copy)]
pub enum Kind {
    /// Type 0.
    LowByte,
    /// Type 2.
    Selector,
    /// Type 3.
    Far,
    /// Type 5.
    Offset,
}

/// Where a record's target comes from, by the flag's bits 0 and 1.
#[derive(Clone, Copy, PartialEq, Eq)]
pub enum Origin {
    /// 0.
    Internal,
    /// 1: import by ordinal.
    ByOrdinal,
    /// 2: import by name.
    ByName,
    /// 3: OS fixup, which changes no byte and has no site.
    Os,
}

/// A record: type byte, flag byte, site word, two target words.
pub struct Record {
    /// `None` for a type that is not 0, 2, 3, 5.
    pub kind: Option<Kind>,
    /// Where the target comes from.
    pub origin: Origin,
    /// Flag bit 2.
    pub additive: bool,
    /// The site word.
    pub site: u16,
    /// The first target word. Its low byte is an internal target's segment.
    first: u16,
    /// The last word.
    last: u16,
}

/// A resolved target.
#[derive(Clone, Copy)]
pub struct Address {
    selector: u16,
    offset: u16,
}

impl Record {
    /// Document 01: only the type's low four bits and the flag's low three are
    /// looked at.
    pub fn read(bytes: &[u8; 8]) -> Record {
        let [type_byte, flag, s0, s1, f0, f1, l0, l1] = *bytes;
        Record {
            kind: match type_byte & 0x0F {
                0 => Some(Kind::LowByte),
                2 => Some(Kind::Selector),
                3 => Some(Kind::Far),
                5 => Some(Kind::Offset),
                _ => None,
            },
            origin: match flag & 3 {
                0 => Origin::Internal,
                1 => Origin::ByOrdinal,
                2 => Origin::ByName,
                _ => Origin::Os,
            },
            additive: flag & 4 != 0,
            site: u16::from_le_bytes([s0, s1]),
            first: u16::from_le_bytes([f0, f1]),
            last: u16::from_le_bytes([l0, l1]),
        }
    }

    /// The record's target, `None` where it doesn't resolve. `entry_of` gives
    /// the entry of an ordinal. An OS fixup has no target; its target words
    /// aren't read.
    pub fn target(
        &self,
        image: &[u8],
        header: &Header,
        entry_of: impl FnOnce(u32) -> Option<Entry>,
        answer: u32,
        selectors: &[u16],
    ) -> Option<Address> {
        match self.origin {
            Origin::Internal => self.internal(header, entry_of, selectors),
            Origin::ByOrdinal => self.import(header, answer),
            Origin::ByName => {
                // The string at the last word, counted from the imported
                // names, must be sound.
                imported_string(image, header, self.last)?;
                self.import(header, answer)
            }
            Origin::Os => None,
        }
    }

    /// Internal: the first target byte is the segment, the next is not read.
    fn internal(
        &self,
        header: &Header,
        entry_of: impl FnOnce(u32) -> Option<Entry>,
        selectors: &[u16],
    ) -> Option<Address> {
        let [segment_byte, _] = self.first.to_le_bytes();
        let (segment, offset) = if segment_byte == 255 {
            // 255 gives the entry of the ordinal in the last word.
            let entry = entry_of(u32::from(self.last))?;
            (entry.segment as usize, entry.offset as u16)
        } else {
            // 1 to the count gives that segment, with the last word as offset.
            // The segment's own record isn't looked at.
            if u64::from(segment_byte) > header.segment_count {
                return None;
            }
            (usize::from(segment_byte), self.last)
        };
        // Segments count from 1. Reading: in a step a segment numbered above
        // the selector list's length doesn't resolve.
        let selector = *selectors.get(segment.checked_sub(1)?)?;
        Some(Address { selector, offset })
    }

    /// Import: the first word is a module number 1 to the count, whose own
    /// string isn't looked at; the address comes from the import answer: low
    /// word offset, high word selector.
    fn import(&self, header: &Header, answer: u32) -> Option<Address> {
        let module = u64::from(self.first);
        if module == 0 || module > header.module_count {
            return None;
        }
        Some(Address {
            selector: (answer >> 16) as u16,
            offset: (answer & 0xFFFF) as u16,
        })
    }
}

impl Kind {
    /// Span: far 4 bytes, selector and offset 2, low byte 2 when chained and 1
    /// when additive.
    pub fn span(self, additive: bool) -> usize {
        match self {
            Kind::Far => 4,
            Kind::Selector | Kind::Offset => 2,
            Kind::LowByte if additive => 1,
            Kind::LowByte => 2,
        }
    }

    /// Writes the target at a site whose span lies in `bytes`. Written: low
    /// byte 1 byte, the others their width. A far pointer is the offset word
    /// first, then the selector.
    pub fn write(self, additive: bool, target: Address, bytes: &mut [u8], site: usize) {
        match self {
            Kind::LowByte => {
                // The low byte is added modulo 256.
                let [low, _] = target.offset.to_le_bytes();
                let held = if additive { bytes[site] } else { 0 };
                bytes[site] = held.wrapping_add(low);
            }
            Kind::Offset => write_offset(additive, target.offset, bytes, site),
            Kind::Selector => put(bytes, site, target.selector),
            Kind::Far => {
                // No carry goes into the selector, and a selector word is
                // replaced, never added.
                write_offset(additive, target.offset, bytes, site);
                put(bytes, site + 2, target.selector);
            }
        }
    }
}

/// Not additive: the target replaces. Additive: offset words are added modulo
/// 65,536.
fn write_offset(additive: bool, offset: u16, bytes: &mut [u8], site: usize) {
    let held = if additive {
        u16::from_le_bytes([bytes[site], bytes[site + 1]])
    } else {
        0
    };
    put(bytes, site, held.wrapping_add(offset));
}

/// Puts a little-endian word at a place.
fn put(bytes: &mut [u8], at: usize, word: u16) {
    bytes[at..at + 2].copy_from_slice(&word.to_le_bytes());
}
