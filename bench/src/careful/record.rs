//! A fixup record: its fields (22) and its target (23).

use super::bytes::part;
use super::entries;
use super::header::Header;

/// What a record writes at a site.
#[derive(Clone, Copy)]
pub enum Kind {
    /// Type 0.
    LowByte,
    /// Type 2.
    Selector,
    /// Type 3.
    Far,
    /// Type 5.
    Offset,
}

/// A record's fields.
pub struct Record {
    /// What it writes.
    pub kind: Kind,
    /// The first site.
    pub site: u16,
    flags: u8,
    first: u16,
    last: u16,
}

/// The address that a target stands for.
#[derive(Clone, Copy)]
pub struct Address {
    /// Its selector.
    pub selector: u16,
    /// Its offset.
    pub offset: u16,
}

impl Record {
    /// Reads the 8 bytes of a record: 22 for a type that is not 0, 2, 3, 5.
    #[inline]
    pub fn read(bytes: &[u8]) -> Result<Record, u32> {
        let word = |at| u16::from_le_bytes([bytes[at], bytes[at + 1]]);
        let kind = match bytes[0] & 15 {
            0 => Kind::LowByte,
            2 => Kind::Selector,
            3 => Kind::Far,
            5 => Kind::Offset,
            _ => return Err(22),
        };
        Ok(Record {
            kind,
            flags: bytes[1],
            site: word(2),
            first: word(4),
            last: word(6),
        })
    }

    /// Is it an OS fixup, which has no site?
    pub fn is_os(&self) -> bool {
        self.flags & 3 == 3
    }

    /// Has it one site, to which the target is added?
    pub fn is_additive(&self) -> bool {
        self.flags & 4 != 0
    }
}

/// What targets are resolved with.
pub struct Tables<'a> {
    /// The whole module.
    pub image: &'a [u8],
    /// Its header, whose entry table is sound.
    pub header: Header<'a>,
    /// At least one for each segment.
    pub selectors: &'a [u16],
    /// At least one for each record.
    pub answers: &'a [u32],
}

impl Tables<'_> {
    /// The address of a record that is no OS fixup, `None` where it doesn't
    /// resolve.
    #[inline]
    pub fn target(&self, record: &Record, answer: u32) -> Option<Address> {
        match record.flags & 3 {
            0 => self.internal(record),
            1 => self.import(record, answer),
            _ if self.string_is_sound(record.last) => self.import(record, answer),
            _ => None,
        }
    }

    fn internal(&self, record: &Record) -> Option<Address> {
        let (segment, offset) = match record.first.to_le_bytes()[0] {
            255 => entries::find(self.header.entries, record.last)?,
            segment => (segment, record.last),
        };
        let index = usize::from(segment).checked_sub(1)?;
        if index >= self.header.segment_count {
            return None;
        }
        let selector = *self.selectors.get(index)?;
        Some(Address { selector, offset })
    }

    fn import(&self, record: &Record, answer: u32) -> Option<Address> {
        let there = record.first != 0 && record.first <= self.header.module_count;
        there.then_some(Address {
            selector: (answer >> 16) as u16,
            offset: answer as u16,
        })
    }

    /// Is the string at a place of the imported names neither empty nor leaving
    /// the image?
    fn string_is_sound(&self, place: u16) -> bool {
        let at = self.header.imported_names + usize::from(place);
        match self.image.get(at) {
            None | Some(0) => false,
            Some(&length) => part(self.image, at + 1, usize::from(length)).is_some(),
        }
    }
}
