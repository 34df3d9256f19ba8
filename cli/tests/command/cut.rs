//! Files that were cut off: whatever a cut takes away of a table, its strings or
//! its data, the file is refused.

use crate::module::{put_word, Module, NE};
use crate::run::Folder;

/// Numbers that look random, by xorshift.
struct Random(u64);

impl Random {
    fn below(&mut self, limit: usize) -> usize {
        self.0 ^= self.0 << 13;
        self.0 ^= self.0 >> 7;
        self.0 ^= self.0 << 17;
        (self.0 % limit as u64) as usize
    }

    fn bytes(&mut self, length: usize) -> Vec<u8> {
        (0..length).map(|_| self.below(255) as u8 + 1).collect()
    }
}

/// What a file is made of. Each part is read to its last byte.
#[derive(Clone, Copy)]
enum Part {
    /// A table whose place stands in this field, from the NE header on.
    Table(usize),
    /// The nonresident names, whose place counts from the file's start.
    Nonresident,
    /// The stored bytes and records of a segment, counted from 0.
    Segment(usize),
    /// The data of a resource, counted from 0.
    Data(usize),
}

const SEGMENTS: Part = Part::Table(0x22);
const RESOURCES: Part = Part::Table(0x24);
/// The bytes of a sector, for segments and resources.
const SECTOR: usize = 16;

/// A length byte and a text.
fn string(random: &mut Random) -> Vec<u8> {
    let length = 1 + random.below(12);
    [vec![length as u8], random.bytes(length)].concat()
}

/// Names with ordinals, and the byte that ends them.
fn names(random: &mut Random) -> Vec<u8> {
    let mut list: Vec<u8> = (0..=random.below(4))
        .flat_map(|_| [string(random), random.bytes(2)].concat())
        .collect();
    list.push(0);
    list
}

/// A segment's stored bytes, with additive fixups 4 bytes apart, and its records.
fn segment(random: &mut Random, segments: usize) -> (Vec<u8>, usize) {
    let records = random.below(5);
    let length = 4 * records + 1 + random.below(40);
    let mut part = random.bytes(length);
    part.extend((records as u16).to_le_bytes());
    for number in 0..records {
        let kind = [0, 2, 3, 5][random.below(4)];
        let target = 1 + random.below(segments) as u8;
        part.extend([kind, 4, 4 * number as u8, 0, target, 0, 7, 0]);
    }
    (part, length)
}

/// A module with all tables, in a random order.
fn generated(random: &mut Random) -> Vec<u8> {
    let (segments, resources) = (1 + random.below(4), 1 + random.below(4));
    let strings: Vec<Vec<u8>> = (0..1 + random.below(3)).map(|_| string(random)).collect();
    let entries = entries(segments as u8);
    let nonresident = names(random);
    let header = header(&[
        (0x06, entries.len()),
        (0x1C, segments),
        (0x1E, strings.len()),
        (0x20, nonresident.len()),
        (0x32, SECTOR.ilog2() as usize),
    ]);
    let mut parts = vec![
        (Part::Table(0x04), entries),
        (Part::Table(0x26), names(random)),
        (Part::Table(0x28), places(&strings)),
        (Part::Table(0x2A), strings.concat()),
        (Part::Nonresident, nonresident),
        (RESOURCES, resource_table(resources)),
    ];
    let mut rows = Vec::new();
    for number in 0..segments {
        let (part, length) = segment(random, segments);
        let words = [0, length as u16, 0x0100, length as u16];
        rows.extend(words.into_iter().flat_map(u16::to_le_bytes));
        parts.push((Part::Segment(number), part));
    }
    parts.push((SEGMENTS, rows));
    for number in 0..resources {
        parts.push((Part::Data(number), random.bytes(SECTOR * (1 + number))));
    }
    laid_out(header, parts, random)
}

/// Both headers, with these words in the NE header.
fn header(fields: &[(usize, usize)]) -> Vec<u8> {
    let mut header = vec![0; NE + 64];
    header[..2].copy_from_slice(b"MZ");
    put_word(&mut header, 0x3C, NE as u16);
    header[NE..NE + 2].copy_from_slice(b"NE");
    for (field, word) in fields {
        put_word(&mut header, NE + field, *word as u16);
    }
    header
}

/// A fixed entry, null ordinals, a movable entry in the last segment, and the end.
fn entries(last: u8) -> Vec<u8> {
    let fixed = [1, 1, 1, 0, 0];
    let movable = [1, 255, 1, 0xCD, 0x3F, last, 0, 0];
    [&fixed[..], &[2, 0], &movable, &[0]].concat()
}

/// The module references: the place of each string among all.
fn places(strings: &[Vec<u8>]) -> Vec<u8> {
    let places = strings.iter().scan(0, |next, string| {
        let place = *next;
        *next += string.len() as u16;
        Some(place)
    });
    places.flat_map(u16::to_le_bytes).collect()
}

/// A block for each resource, whose length in sectors is its number.
fn resource_table(resources: usize) -> Vec<u8> {
    let shift = SECTOR.ilog2() as u16;
    let block = |number: usize| {
        [
            0x8000 + number as u16,
            1,
            0,
            0,
            0,
            number as u16,
            0,
            0x8001,
            0,
            0,
        ]
    };
    let blocks = (1..=resources).flat_map(block);
    let words = [shift].into_iter().chain(blocks).chain([0]);
    words.flat_map(u16::to_le_bytes).collect()
}

/// Puts the parts after the header in a random order, and says where they are.
fn laid_out(header: Vec<u8>, mut parts: Vec<(Part, Vec<u8>)>, random: &mut Random) -> Vec<u8> {
    let mut image = header;
    let mut places = Vec::new();
    while !parts.is_empty() {
        let (part, bytes) = parts.swap_remove(random.below(parts.len()));
        if matches!(part, Part::Segment(_) | Part::Data(_)) {
            image.resize(image.len().next_multiple_of(SECTOR), 0);
        }
        places.push((part, image.len()));
        image.extend(bytes);
    }
    // The tables are placed first, since segments and data stand in them.
    for (part, place) in &places {
        match part {
            Part::Table(field) => put_word(&mut image, NE + field, (place - NE) as u16),
            Part::Nonresident => put_word(&mut image, NE + 0x2C, *place as u16),
            Part::Segment(_) | Part::Data(_) => {}
        }
    }
    let table = |image: &[u8], field: usize| {
        NE + usize::from(u16::from_le_bytes([
            image[NE + field],
            image[NE + field + 1],
        ]))
    };
    let (segments, resources) = (table(&image, 0x22), table(&image, 0x24));
    for (part, place) in places {
        let row = match part {
            Part::Segment(number) => segments + 8 * number,
            Part::Data(number) => resources + 2 + 20 * number + 8,
            Part::Table(_) | Part::Nonresident => continue,
        };
        put_word(&mut image, row, (place / SECTOR) as u16);
    }
    image
}

/// The files of a folder that are accepted, and that their names say.
fn accepted(folder: &Folder) -> (Vec<String>, usize) {
    let answer = folder.nemod(&["check", "--json", "-r", "."]);
    assert_eq!((answer.status, answer.errors.as_str()), (Some(1), ""));
    let lines: Vec<&str> = answer.output.lines().collect();
    let accepted = lines
        .iter()
        .filter(|line| line.contains(r#""status":"accepted""#));
    let name = |line: &&str| line.split('"').nth(3).unwrap_or_default().to_string();
    (accepted.map(name).collect(), lines.len())
}

/// Every length of the sample, whose last byte is a record's.
#[test]
fn every_length_of_the_sample() {
    let folder = Folder::new();
    let image = Module::sample().image();
    for length in 0..=image.len() {
        folder.put(format!("{length:03}"), &image[..length]);
    }
    assert_eq!(accepted(&folder), (vec!["./296".to_string()], 297));
}

/// 1,000 cuts of 50 modules with all tables, of which each ends with another part.
#[test]
fn generated_modules() {
    let folder = Folder::new();
    let mut random = Random(0x9E37_79B9_7F4A_7C15);
    let mut whole = Vec::new();
    for module in 0..50 {
        let image = generated(&mut random);
        whole.push(format!("./{module:02}"));
        folder.put(format!("{module:02}"), &image);
        for cut in 0..20 {
            // Some of them near the end, where the last part is cut only.
            let least = if cut % 2 == 0 {
                0
            } else {
                image.len().saturating_sub(24)
            };
            let length = least + random.below(image.len() - least);
            folder.put(format!("{module:02}-{cut:02}"), &image[..length]);
        }
    }
    assert_eq!(accepted(&folder), (whole, 1_050));
}
