//! Assembles small images, and prepares segments of them while the promises on
//! lent buffers are checked.

use reference::{prepare, Refused};

/// Where the NE header stands unless said.
pub const NE: usize = 64;

/// The NE header's fields, from the file's start.
pub const ENTRY: usize = NE + 0x04;
pub const ENTRY_BYTES: usize = NE + 0x06;
pub const SEGMENT_COUNT: usize = NE + 0x1C;
pub const MODULE_COUNT: usize = NE + 0x1E;
pub const NONRESIDENT_BYTES: usize = NE + 0x20;
pub const SEGMENTS: usize = NE + 0x22;
pub const RESOURCES: usize = NE + 0x24;
pub const RESIDENT: usize = NE + 0x26;
pub const MODULES: usize = NE + 0x28;
pub const IMPORTED: usize = NE + 0x2A;
pub const NONRESIDENT: usize = NE + 0x2C;
pub const SHIFT: usize = NE + 0x32;

/// One segment of an image to build.
#[derive(Clone, Default)]
pub struct Seg {
    pub stored: Vec<u8>,
    /// Flags, to which 0100h is added where there are records.
    pub flags: u16,
    /// The allocation word; the stored length's without one.
    pub allocation: Option<u16>,
    pub records: Vec<[u8; 8]>,
}

/// The parts of an image to build. With no stored bytes the sector is 0.
#[derive(Clone)]
pub struct Build {
    pub shift: u16,
    pub segments: Vec<Seg>,
    pub entry: Vec<u8>,
    pub resident: Vec<u8>,
    pub nonresident: Vec<u8>,
    pub modules: Vec<u16>,
    pub imported: Vec<u8>,
    /// None: the places at 24h and 26h are equal.
    pub resources: Option<Vec<u8>>,
}

impl Default for Build {
    fn default() -> Build {
        Build {
            shift: 0,
            segments: Vec::new(),
            entry: Vec::new(),
            resident: vec![0],
            nonresident: Vec::new(),
            modules: Vec::new(),
            imported: Vec::new(),
            resources: None,
        }
    }
}

impl Build {
    /// The image: both headers, the tables, then the segments with their
    /// records. It ends with the last of them.
    pub fn image(&self) -> Vec<u8> {
        let mut image = vec![0; NE + 64];
        image[..2].copy_from_slice(b"MZ");
        put_dword(&mut image, 0x3C, NE as u32);
        image[NE..NE + 2].copy_from_slice(b"NE");
        put_word(&mut image, SHIFT, self.shift);
        self.tables(&mut image);
        let table = NE + usize::from(word(&image, SEGMENTS));
        for (index, segment) in self.segments.iter().enumerate() {
            self.segment(&mut image, table + 8 * index, segment);
        }
        image
    }

    fn tables(&self, image: &mut Vec<u8>) {
        let modules: Vec<u8> = self.modules.iter().flat_map(|m| m.to_le_bytes()).collect();
        let parts: [(usize, &[u8]); 5] = [
            (SEGMENTS, &vec![0; 8 * self.segments.len()]),
            (RESIDENT, &self.resident),
            (MODULES, &modules),
            (IMPORTED, &self.imported),
            (ENTRY, &self.entry),
        ];
        for (field, part) in parts {
            place_table(image, field, part);
        }
        match &self.resources {
            Some(resources) => place_table(image, RESOURCES, resources),
            None => {
                let resident = word(image, RESIDENT);
                put_word(image, RESOURCES, resident);
            }
        }
        put_word(image, SEGMENT_COUNT, self.segments.len() as u16);
        put_word(image, MODULE_COUNT, self.modules.len() as u16);
        put_word(image, ENTRY_BYTES, self.entry.len() as u16);
        put_word(image, NONRESIDENT_BYTES, self.nonresident.len() as u16);
        let place = image.len() as u32;
        put_dword(image, NONRESIDENT, place);
        image.extend(&self.nonresident);
    }

    fn segment(&self, image: &mut Vec<u8>, row: usize, segment: &Seg) {
        let mut sector = 0;
        if !segment.stored.is_empty() {
            image.resize(image.len().next_multiple_of(1 << self.shift), 0);
            sector = image.len() >> self.shift;
        }
        let length = segment.stored.len() as u16;
        let follow = if segment.records.is_empty() {
            0
        } else {
            0x0100
        };
        put_word(image, row, u16::try_from(sector).unwrap());
        put_word(image, row + 2, length);
        put_word(image, row + 4, segment.flags | follow);
        put_word(image, row + 6, segment.allocation.unwrap_or(length));
        image.extend(&segment.stored);
        if !segment.records.is_empty() {
            image.extend((segment.records.len() as u16).to_le_bytes());
            image.extend(segment.records.concat());
        }
    }
}

/// Appends a table and sets its place, counted from the NE header.
fn place_table(image: &mut Vec<u8>, field: usize, part: &[u8]) {
    let place = image.len() - NE;
    put_word(image, field, place as u16);
    image.extend(part);
}

/// An image of one segment with its allocation the stored length.
pub fn one(stored: &[u8], records: &[[u8; 8]]) -> Vec<u8> {
    with(stored, records).image()
}

/// The parts of such an image.
pub fn with(stored: &[u8], records: &[[u8; 8]]) -> Build {
    Build {
        segments: vec![Seg {
            stored: stored.to_vec(),
            records: records.to_vec(),
            ..Seg::default()
        }],
        ..Build::default()
    }
}

/// A segment of these stored bytes.
pub fn plain(stored: &[u8]) -> Seg {
    Seg {
        stored: stored.to_vec(),
        ..Seg::default()
    }
}

/// The place of segment record `number`.
pub fn row(image: &[u8], number: usize) -> usize {
    NE + usize::from(word(image, SEGMENTS)) + 8 * (number - 1)
}

/// Types of records, and the flag bit of additive ones.
pub const LOW: u8 = 0;
pub const SELECTOR: u8 = 2;
pub const FAR: u8 = 3;
pub const OFFSET: u8 = 5;
pub const ADD: u8 = 4;

/// A record by its fields.
pub fn record(type_byte: u8, flag: u8, site: u16, first: u16, last: u16) -> [u8; 8] {
    let [s0, s1] = site.to_le_bytes();
    let [f0, f1] = first.to_le_bytes();
    let [l0, l1] = last.to_le_bytes();
    [type_byte, flag, s0, s1, f0, f1, l0, l1]
}

/// A chained record with internal target 1:1234h.
pub fn chained(type_byte: u8, site: u16) -> [u8; 8] {
    record(type_byte, 0, site, 1, 0x1234)
}

/// An additive record with internal target 1:1234h.
pub fn additive(type_byte: u8, site: u16) -> [u8; 8] {
    record(type_byte, ADD, site, 1, 0x1234)
}

pub fn word(image: &[u8], at: usize) -> u16 {
    u16::from_le_bytes([image[at], image[at + 1]])
}

pub fn put_word(image: &mut [u8], at: usize, value: u16) {
    image[at..at + 2].copy_from_slice(&value.to_le_bytes());
}

pub fn put_dword(image: &mut [u8], at: usize, value: u32) {
    image[at..at + 4].copy_from_slice(&value.to_le_bytes());
}

/// What an accepted preparing gives: the bytes up to the allocation, the marks
/// up to the stored length, the site count.
#[derive(Debug, Clone, PartialEq, Eq)]
pub struct Prepared {
    pub bytes: Vec<u8>,
    pub marks: Vec<u8>,
    pub sites: u32,
}

/// The selector that `prepared` gives for a segment: 2000h for segment 1.
pub fn selector(segment: u16) -> u16 {
    0x1FFF + segment
}

/// The import answer that `prepared` gives for record `number`.
pub fn answer(number: u32) -> u32 {
    0xA000_5000 + 0x0001_0001 * number
}

/// Prepares segment 1 with lists that are longer than needed.
pub fn prepared(image: &[u8]) -> Result<Prepared, Refused> {
    let selectors: Vec<u16> = (1..=300).map(selector).collect();
    let answers: Vec<u32> = (1..=70).map(answer).collect();
    prepared_with(image, 1, &selectors, &answers)
}

/// Prepares a segment with room to spare, and checks what is promised on the
/// lent buffers in a refusal and in an acceptance.
pub fn prepared_with(
    image: &[u8],
    number: u32,
    selectors: &[u16],
    answers: &[u32],
) -> Result<Prepared, Refused> {
    let mut output = vec![0xEE; 65_536 + 3];
    let mut marks = vec![0x77; 65_536 + 5];
    match prepare(image, number, selectors, answers, &mut output, &mut marks) {
        Err(refused) => {
            assert!(output.iter().all(|&byte| byte == 0xEE));
            assert!(marks.iter().all(|&mark| mark == 0));
            Err(refused)
        }
        Ok(sites) => {
            let segment = reference::segment(image, number).unwrap();
            let rest = output.split_off(segment.allocation as usize);
            assert!(rest.iter().all(|&byte| byte == 0xEE));
            let rest = marks.split_off(segment.stored as usize);
            assert!(rest.iter().all(|&mark| mark == 0));
            assert!(marks.iter().all(|&mark| mark <= 1));
            Ok(Prepared {
                bytes: output,
                marks,
                sites,
            })
        }
    }
}

/// The prepared bytes and the site count of segment 1.
pub fn bytes_and_sites(image: &[u8]) -> (Vec<u8>, u32) {
    let prepared = prepared(image).unwrap();
    (prepared.bytes, prepared.sites)
}

/// The refusal of segment 1 as number and record.
pub fn refusal(image: &[u8]) -> (u32, u32) {
    let refused = prepared(image).unwrap_err();
    (refused.number, refused.record)
}
