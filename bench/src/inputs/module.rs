//! A module of some segments and one module reference.

use super::noise::Noise;
use std::ops::Range;

pub const LOW_BYTE: u8 = 0;
pub const SELECTOR: u8 = 2;
pub const FAR: u8 = 3;
pub const OFFSET: u8 = 5;
/// The flag bit of an additive record.
pub const ADDITIVE: u8 = 4;
/// The segments that targets are in.
pub const SEGMENTS: usize = 4;
/// The place of a string in the imported names.
pub const STRING: u16 = 8;

const IMPORTED_NAMES: &[u8] = b"\0\x06KERNEL\x04BEEP";
/// Its only one is the string at 1 of the imported names.
const MODULE_REFERENCES: &[u8] = &[1, 0];
/// The NE header's place; the tables stand behind it.
const HEADER: usize = 64;
const HEADER_END: usize = HEADER + 64;
const ENTRY_TABLE_FIELD: usize = 0x04;
const SEGMENT_TABLE_FIELD: usize = 0x22;
/// The alignment shift.
const SHIFT: usize = 9;

/// What the module of an input holds.
#[derive(Clone)]
pub struct Module {
    pub stored: Vec<u8>,
    pub allocation: usize,
    pub records: Vec<[u8; 8]>,
    pub entries: Vec<u8>,
    /// Does the entry table stand in the first stored bytes, which it replaces?
    pub entries_in_stored: bool,
    pub imported: Vec<u8>,
    /// How many segments there are. All of them have the same stored bytes and
    /// records.
    pub segments: usize,
}

/// The eight bytes of a fixup record.
pub fn record(kind: u8, flags: u8, site: u16, first: u16, last: u16) -> [u8; 8] {
    let ([s0, s1], [f0, f1], [l0, l1]) =
        (site.to_le_bytes(), first.to_le_bytes(), last.to_le_bytes());
    [kind, flags, s0, s1, f0, f1, l0, l1]
}

/// An entry table in bundles of 255, movable and fixed in turn.
pub fn entry_table(ordinals: usize) -> Vec<u8> {
    let mut table = Vec::new();
    for first in (0..ordinals).step_by(255) {
        let count = (ordinals - first).min(255);
        let movable = first / 255 % 2 == 0;
        table.extend([count as u8, if movable { 255 } else { 2 }]);
        for ordinal in first..first + count {
            table.push(3);
            if movable {
                table.extend([0xCD, 0x3F, 1 + (ordinal % 4) as u8]);
            }
            table.extend((ordinal as u16).to_le_bytes());
        }
    }
    table.push(0);
    table
}

impl Module {
    /// As many stored bytes, no records and no entries.
    pub fn new(bytes: usize) -> Module {
        let mut noise = Noise::new(0);
        Module {
            stored: (0..bytes).map(|_| noise.byte()).collect(),
            allocation: bytes,
            records: Vec::new(),
            entries: Vec::new(),
            entries_in_stored: false,
            imported: IMPORTED_NAMES.to_vec(),
            segments: SEGMENTS,
        }
    }

    /// Makes a chain of these sites and gives its first.
    pub fn link(&mut self, sites: &[usize]) -> u16 {
        let next = sites[1..].iter().map(|&site| site as u16);
        for (&site, next) in sites.iter().zip(next.chain([0xFFFF])) {
            put(&mut self.stored, site, next.into());
        }
        sites[0] as u16
    }

    /// The module's bytes, and where the stored ones are in them.
    pub fn image(&self) -> (Vec<u8>, Range<usize>) {
        let tables = self.tables();
        let lengths: usize = tables.iter().map(|(_, table)| table.len()).sum();
        let start = (HEADER_END + lengths).next_multiple_of(1 << SHIFT);
        let mut image = vec![0; start];
        self.headers(&mut image, start);
        let mut at = HEADER_END;
        for (field, table) in tables {
            put(&mut image, HEADER + field, at - HEADER);
            image[at..][..table.len()].copy_from_slice(&table);
            at += table.len();
        }
        self.segment_table(&mut image, start);
        image.extend(&self.stored);
        let stored = start..image.len();
        if self.entries_in_stored {
            image[start..][..self.entries.len()].copy_from_slice(&self.entries);
        }
        image.extend((self.records.len() as u16).to_le_bytes());
        image.extend(self.records.iter().flatten());
        (image, stored)
    }

    /// The tables behind the header, each with the field that has its place. That
    /// is a word, so the longest table is the last one.
    fn tables(&self) -> Vec<(usize, Vec<u8>)> {
        let mut tables = vec![
            (SEGMENT_TABLE_FIELD, vec![0; 8 * self.segments]),
            (0x28, MODULE_REFERENCES.to_vec()),
            (0x2A, self.imported.clone()),
        ];
        if !self.entries_in_stored {
            tables.push((ENTRY_TABLE_FIELD, self.entries.clone()));
        }
        tables.sort_by_key(|(_, table)| table.len());
        tables
    }

    /// The entry table's place is that of the stored bytes until it gets one of
    /// its own.
    fn headers(&self, image: &mut [u8], start: usize) {
        image[..2].copy_from_slice(b"MZ");
        put(image, 0x3C, HEADER);
        image[HEADER..][..2].copy_from_slice(b"NE");
        let fields = [
            (ENTRY_TABLE_FIELD, start - HEADER),
            (0x06, self.entries.len()),
            (0x1C, self.segments),
            (0x1E, MODULE_REFERENCES.len() / 2),
            (0x32, SHIFT),
        ];
        for (at, value) in fields {
            put(image, HEADER + at, value);
        }
    }

    fn segment_table(&self, image: &mut [u8], start: usize) {
        let flags = if self.records.is_empty() { 0 } else { 0x0100 };
        let row = [start >> SHIFT, self.stored.len(), flags, self.allocation];
        let table = HEADER + word(image, HEADER + SEGMENT_TABLE_FIELD);
        let values = row.iter().cycle().take(4 * self.segments);
        for (n, &value) in values.enumerate() {
            put(image, table + 2 * n, value);
        }
    }
}

fn word(bytes: &[u8], at: usize) -> usize {
    usize::from(u16::from_le_bytes([bytes[at], bytes[at + 1]]))
}

/// Puts the low word of a number; 65,536 becomes 0, as a length word has it.
fn put(bytes: &mut [u8], at: usize, value: usize) {
    bytes[at..at + 2].copy_from_slice(&(value as u16).to_le_bytes());
}
