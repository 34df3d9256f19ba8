//! The fields of the headers as they stand in the file, checked or not.

use parchgable::Header;

/// The bytes of the NE header, and of the MZ header as far as it matters.
const LENGTH: usize = 64;

/// An NE header, and where it stands.
pub struct Raw<'a> {
    at: usize,
    bytes: &'a [u8],
}

impl<'a> Raw<'a> {
    /// The 64 bytes at the place that the MZ header says, if they lie in the file.
    pub fn of(file: &'a [u8]) -> Option<Self> {
        let mz = Raw {
            at: 0,
            bytes: file.get(..LENGTH)?,
        };
        let at = mz.dword(0x3C) as usize;
        let bytes = file.get(at..at.checked_add(LENGTH)?)?;
        Some(Raw { at, bytes })
    }

    pub fn is_ne(&self) -> bool {
        self.bytes.starts_with(b"NE")
    }

    pub fn at(&self) -> usize {
        self.at
    }

    pub fn byte(&self, field: usize) -> u8 {
        self.bytes[field]
    }

    pub fn word(&self, field: usize) -> u16 {
        u16::from_le_bytes([self.byte(field), self.byte(field + 1)])
    }

    fn dword(&self, field: usize) -> u32 {
        u32::from(self.word(field)) + 65_536 * u32::from(self.word(field + 2))
    }

    /// The tables as the header places them. They may lie anywhere.
    pub fn tables(&self) -> Header {
        let count = |field| u32::from(self.word(field));
        let place = |field| self.at as u32 + count(field);
        Header {
            header_at: self.at as u32,
            unit: 1_u32.checked_shl(count(0x32)).unwrap_or_default(),
            segments_at: place(0x22),
            segments: count(0x1C),
            modules_at: place(0x28),
            modules: count(0x1E),
            entries_at: place(0x04),
            entries_len: count(0x06),
            nonresident_at: self.dword(0x2C),
            nonresident_len: count(0x20),
            resident_at: place(0x26),
            imported_at: place(0x2A),
            resources_at: place(0x24),
        }
    }
}
