//! Modules with fixup records, for the edges of preparing and of the step.

use super::minimal::Minimal;

pub const LOW: u8 = 0;
pub const SELECTOR: u8 = 2;
pub const FAR: u8 = 3;
pub const OFFSET: u8 = 5;
pub const ADDITIVE: u8 = 4;

/// The types with the lengths of their spans, chained and additive.
pub const TYPES: [(u8, usize, usize); 4] =
    [(LOW, 2, 1), (SELECTOR, 2, 2), (FAR, 4, 4), (OFFSET, 2, 2)];

pub type Record = [u8; 8];

pub fn record(kind: u8, flags: u8, site: u16, first: u16, last: u16) -> Record {
    let ([s, t], [f, g]) = (site.to_le_bytes(), first.to_le_bytes());
    let [l, m] = last.to_le_bytes();
    [kind, flags, s, t, f, g, l, m]
}

/// With the target 1:1234h.
pub fn chained(kind: u8, site: u16) -> Record {
    record(kind, 0, site, 1, 0x1234)
}

/// With the target 1:1234h.
pub fn additive(kind: u8, site: u16) -> Record {
    record(kind, ADDITIVE, site, 1, 0x1234)
}

/// Segment 1 has selector 2000h, 2 has 2001h and so on.
pub fn selectors(count: usize) -> Vec<u16> {
    (0..count).map(|n| (0x2000 + n) as u16).collect()
}

/// The first record's answer is 7001h:0501h, the next 7002h:0502h and so on.
pub fn answers(count: usize) -> Vec<u32> {
    let answer = |n: u16| {
        let (selector, offset) = (0x7000u16.wrapping_add(n), 0x0500u16.wrapping_add(n));
        u32::from(selector) << 16 | u32::from(offset)
    };
    (1..=count).map(|n| answer(n as u16)).collect()
}

/// The entry table of P10: ordinals 1 (1:0010h) and 4 (2:0020h), 2 and 3 null.
pub const P10: [u8; 16] = [
    0x01, 0x01, 0x01, 0x10, 0x00, 0x02, 0x00, 0x01, 0xFF, 0x03, 0xCD, 0x3F, 0x02, 0x20, 0x00, 0x00,
];

/// A module whose first segment has stored bytes and records. All tables stand
/// before these, in the order of the fields.
#[derive(Clone)]
pub struct Module {
    /// How many segments there are; all but the first have sector 0.
    pub segments: usize,
    pub entries: Vec<u8>,
    /// How many module references there are; none of them has a string.
    pub modules: usize,
    pub imported: Vec<u8>,
    pub stored: Vec<u8>,
    pub flags: u16,
    /// As it is written; 0 is 65,536.
    pub allocation: u16,
    pub records: Vec<Record>,
    /// What stands behind the records.
    pub tail: Vec<u8>,
}

/// Two segments, the entries of P10, two modules, and the imported names "" and
/// "USR" at 0 and 1. The allocation is the stored length.
pub fn module(stored: &[u8], records: &[Record]) -> Module {
    Module {
        segments: 2,
        entries: P10.to_vec(),
        modules: 2,
        imported: b"\0\x03USR".to_vec(),
        stored: stored.to_vec(),
        flags: 0x0100,
        allocation: stored.len() as u16,
        records: records.to_vec(),
        tail: Vec::new(),
    }
}

impl Module {
    pub fn allocation(self, allocation: u16) -> Self {
        Module { allocation, ..self }
    }

    /// The allocation's length.
    pub fn room(&self) -> usize {
        match self.allocation {
            0 => 65_536,
            allocation => usize::from(allocation),
        }
    }

    /// Without any table but the segments', whose places are words.
    pub fn without_tables(self, segments: usize) -> Self {
        Module {
            segments,
            entries: Vec::new(),
            modules: 0,
            imported: Vec::new(),
            ..self
        }
    }

    fn entries_at(&self) -> usize {
        128 + 8 * self.segments
    }

    pub fn imported_at(&self) -> usize {
        self.entries_at() + self.entries.len() + 2 * self.modules
    }

    /// The place of the stored bytes, in sectors of 16 bytes.
    pub fn stored_at(&self) -> usize {
        (self.imported_at() + self.imported.len()).next_multiple_of(16)
    }

    fn records_at(&self) -> usize {
        self.stored_at() + self.stored.len()
    }

    pub fn tail_at(&self) -> usize {
        let list = match self.flags & 0x0100 {
            0 => 0,
            _ => 2 + 8 * self.records.len(),
        };
        self.records_at() + list
    }

    pub fn image(&self) -> Minimal {
        let tail_at = self.tail_at();
        let mut image = Minimal::new()
            .length(tail_at + self.tail.len())
            .put(tail_at, &self.tail)
            .put(self.entries_at(), &self.entries)
            .put(self.imported_at(), &self.imported)
            .put(self.stored_at(), &self.stored)
            .record(128, self.row());
        for index in 1..self.segments {
            image = image.record(128 + 8 * index, [0, 0, 0, 1]);
        }
        let modules_at = self.entries_at() + self.entries.len();
        image = image.put(modules_at, &vec![0xFF; 2 * self.modules]);
        if self.flags & 0x0100 != 0 {
            image = image
                .put_word(self.records_at(), self.records.len() as u16)
                .put(self.records_at() + 2, &self.records.concat());
        }
        self.header(image)
    }

    /// The first segment's record.
    fn row(&self) -> [u16; 4] {
        let sector = match self.stored.len() {
            0 => 0,
            _ => self.stored_at() / 16,
        };
        let length = self.stored.len() as u16;
        [sector as u16, length, self.flags, self.allocation]
    }

    fn header(&self, image: Minimal) -> Minimal {
        let from_header = |place: usize| (place - 64) as u16;
        image
            .ne_word(0x04, from_header(self.entries_at()))
            .ne_word(0x06, self.entries.len() as u16)
            .ne_word(0x1C, self.segments as u16)
            .ne_word(0x1E, self.modules as u16)
            .ne_word(0x22, 64)
            .ne_word(0x28, from_header(self.entries_at() + self.entries.len()))
            .ne_word(0x2A, from_header(self.imported_at()))
            .ne_word(0x32, 4)
    }
}
