//! Small modules, laid out table by table.

/// The place of the NE header.
pub const NE: usize = 64;
/// The place of the segment table.
pub const SEGMENTS: usize = 128;
/// The bytes of a sector, 2 to the shift.
const UNIT: usize = 16;
const SHIFT: u16 = 4;

/// A module's tables, each as its bytes.
#[derive(Clone, Default)]
pub struct Module {
    pub segments: Vec<Segment>,
    pub entries: Vec<u8>,
    pub resources: Vec<u8>,
    pub resident: Vec<u8>,
    pub modules: Vec<u8>,
    pub imported: Vec<u8>,
    pub nonresident: Vec<u8>,
}

#[derive(Clone, Default)]
pub struct Segment {
    pub stored: Vec<u8>,
    pub allocation: u16,
    pub records: Vec<[u8; 8]>,
}

impl Module {
    /// Two segments, two entry points, four names, two modules and a resource.
    pub fn sample() -> Module {
        Module {
            segments: vec![
                // An offset chain at 2 and 6, to segment 1 at 1234h.
                Segment {
                    stored: vec![0, 0, 6, 0, 0xAA, 0xBB, 0xFF, 0xFF],
                    allocation: 10,
                    records: vec![[5, 0, 2, 0, 1, 0, 0x34, 0x12]],
                },
                // An additive far pointer at 0, to ordinal 7 of module 2; a
                // chained low byte at 4, to ordinal 4.
                Segment {
                    stored: vec![0xFE, 0xFF, 0, 0, 0xFF, 0xFF],
                    allocation: 6,
                    records: vec![[3, 5, 0, 0, 2, 0, 7, 0], [0, 0, 4, 0, 255, 0, 4, 0]],
                },
            ],
            // A fixed entry, two null ordinals and a movable entry.
            entries: vec![1, 1, 1, 0x10, 0, 2, 0, 1, 255, 3, 0xCD, 0x3F, 2, 0x20, 0, 0],
            // A shift of 4; type 8006h: 32 bytes at 48, flags 0C30h, id 8007h.
            resources: vec![
                4, 0, 6, 0x80, 1, 0, 0, 0, 0, 0, 3, 0, 2, 0, 0x30, 0x0C, 7, 0x80, 0, 0, 0, 0, 0, 0,
            ],
            resident: b"\x03MOD\x00\x00\x05Alpha\x04\x00\x00".to_vec(),
            modules: vec![1, 0, 5, 0],
            imported: b"\x00\x03GDI\x06KERNEL".to_vec(),
            nonresident: b"\x05About\x00\x00\x06Omega!\x34\x12\x00".to_vec(),
        }
    }

    /// The file. The tables follow the NE header in the order of the fields,
    /// and then come the segments.
    pub fn image(&self) -> Vec<u8> {
        let mut image = vec![0; SEGMENTS + 8 * self.segments.len()];
        image[..2].copy_from_slice(b"MZ");
        put_word(&mut image, 0x3C, NE as u16);
        image[NE..NE + 2].copy_from_slice(b"NE");
        put_word(&mut image, NE + 0x06, self.entries.len() as u16);
        put_word(&mut image, NE + 0x1C, self.segments.len() as u16);
        put_word(&mut image, NE + 0x1E, (self.modules.len() / 2) as u16);
        put_word(&mut image, NE + 0x20, self.nonresident.len() as u16);
        put_word(&mut image, NE + 0x22, (SEGMENTS - NE) as u16);
        put_word(&mut image, NE + 0x32, SHIFT);
        self.add_tables(&mut image);
        for (index, segment) in self.segments.iter().enumerate() {
            segment.add(&mut image, SEGMENTS + 8 * index);
        }
        image
    }

    fn add_tables(&self, image: &mut Vec<u8>) {
        let from_header = [
            (0x04, &self.entries),
            (0x24, &self.resources),
            (0x26, &self.resident),
            (0x28, &self.modules),
            (0x2A, &self.imported),
        ];
        for (field, table) in from_header {
            let place = image.len() - NE;
            put_word(image, NE + field, place as u16);
            image.extend(table);
        }
        let place = image.len();
        put_word(image, NE + 0x2C, place as u16);
        image.extend(&self.nonresident);
    }
}

impl Segment {
    /// Adds the stored bytes and the records, and puts the row at its place.
    pub fn add(&self, image: &mut Vec<u8>, row: usize) {
        let start = image.len().next_multiple_of(UNIT);
        image.resize(start, 0);
        image.extend(&self.stored);
        let sector = match self.stored.len() {
            0 => 0,
            _ => (start / UNIT) as u16,
        };
        let flags = match self.records.len() {
            0 => 0,
            _ => 0x0100,
        };
        put_word(image, row, sector);
        put_word(image, row + 2, self.stored.len() as u16);
        put_word(image, row + 4, flags);
        put_word(image, row + 6, self.allocation);
        if flags != 0 {
            image.extend((self.records.len() as u16).to_le_bytes());
            image.extend(self.records.concat());
        }
    }
}

pub fn put_word(image: &mut [u8], at: usize, word: u16) {
    image[at..at + 2].copy_from_slice(&word.to_le_bytes());
}
