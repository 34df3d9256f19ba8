//! Random bytes, with more and more of a module planted in them.

mod tables;

use super::Input;
use builder::Random;
use tables::{entry_table, module_references, name_list, resource_table};

/// The longest image that is admitted.
const LONGEST_IMAGE: usize = 16_777_216;

pub fn input(random: &mut Random) -> Input {
    let length = length(random);
    let mut bytes = vec![0; length];
    // Filling a very long image would take most of a run's time.
    random.fill(&mut bytes[..length.min(100_000)]);
    let mut ground = Ground::new(bytes, random);
    let planted = ground.plant(random);
    Input {
        origin: format!("random, {length} bytes, {planted} things planted"),
        bytes: ground.bytes,
        segment: None,
    }
}

fn length(random: &mut Random) -> usize {
    match random.below(2_000) {
        0 => random.between(LONGEST_IMAGE - 1, LONGEST_IMAGE + 2),
        1..=20 => random.below(100_000),
        21..=200 => random.between(60, 68),
        201..=400 => random.between(120, 140),
        _ => random.below(1_000),
    }
}

/// An image that things are planted in.
struct Ground {
    bytes: Vec<u8>,
    /// The NE header's place.
    header: usize,
}

type Plant = fn(&mut Ground, &mut Random);

/// The headers, of which the first few things are planted.
const HEADERS: [Plant; 6] = [
    |ground, _| ground.put(0, b"MZ"),
    |ground, _| ground.put(0x3C, &(ground.header as u32).to_le_bytes()),
    |ground, _| ground.put(ground.header, b"NE"),
    |ground, random| ground.put_word(0x32, random.below(17)),
    no_tables,
    segment_table,
];

/// The tables, any of which may be planted behind whole headers. The last one
/// is the longest, and so the one that the others would spoil most often.
const TABLES: [Plant; 4] = [name_lists, modules, resources, entries];

/// None that has a size.
fn no_tables(ground: &mut Ground, _: &mut Random) {
    ground.put_word(0x06, 0);
    ground.put_word(0x1E, 0);
    ground.put_word(0x20, 0);
}

/// Whatever stands at its place.
fn segment_table(ground: &mut Ground, random: &mut Random) {
    let place = random.below(ground.bytes.len().clamp(1, 256));
    ground.put_word(0x1C, random.below(4));
    ground.put_word(0x22, place);
}

fn name_lists(ground: &mut Ground, random: &mut Random) {
    let place = ground.behind_the_header(random);
    ground.put_table(0x26, place, &name_list(random));
    let list = name_list(random);
    let place = ground.header + ground.behind_the_header(random);
    ground.put(ground.header + 0x2C, &(place as u32).to_le_bytes());
    ground.put_word(0x20, list.len());
    ground.put(place, &list);
}

fn modules(ground: &mut Ground, random: &mut Random) {
    let references = module_references(random);
    let place = ground.behind_the_header(random);
    ground.put_table(0x28, place, &references);
    ground.put_word(0x1E, references.len() / 2);
    // A list of names holds strings as the imported names do.
    let place = ground.behind_the_header(random);
    ground.put_table(0x2A, place, &name_list(random));
}

fn resources(ground: &mut Ground, random: &mut Random) {
    let place = ground.behind_the_header(random);
    ground.put_table(0x24, place, &resource_table(random));
}

fn entries(ground: &mut Ground, random: &mut Random) {
    let table = entry_table(random);
    let place = ground.behind_the_header(random);
    ground.put_table(0x04, place, &table);
    ground.put_word(0x06, table.len());
}

impl Ground {
    /// The NE header is often near the start, so that there is room for tables
    /// behind it.
    fn new(bytes: Vec<u8>, random: &mut Random) -> Self {
        let mut ground = Ground { bytes, header: 0 };
        let farthest = random.pick(&[9, 1_000]);
        ground.header = 64 + random.below(ground.room().min(farthest) + 1);
        ground
    }

    /// Gives how many things were planted.
    fn plant(&mut self, random: &mut Random) -> usize {
        let headers = random.below(10).min(HEADERS.len());
        let mut plants = HEADERS[..headers].to_vec();
        if headers == HEADERS.len() {
            plants.extend(TABLES.iter().filter(|_| random.chance(50)));
        }
        for plant in &plants {
            plant(self, random);
        }
        plants.len()
    }

    /// The bytes that two headers leave.
    fn room(&self) -> usize {
        self.bytes.len().saturating_sub(128)
    }

    /// A place that counts from the NE header.
    fn behind_the_header(&self, random: &mut Random) -> usize {
        64 + random.below(self.room().clamp(1, 256))
    }

    /// What doesn't fit is left out.
    fn put(&mut self, at: usize, held: &[u8]) {
        if let Some(there) = self.bytes.get_mut(at..at + held.len()) {
            there.copy_from_slice(held);
        }
    }

    /// Puts a word of the NE header.
    fn put_word(&mut self, offset: usize, word: usize) {
        self.put(self.header + offset, &(word as u16).to_le_bytes());
    }

    /// Puts a table at a place from the NE header on, and its place.
    fn put_table(&mut self, offset: usize, place: usize, table: &[u8]) {
        self.put_word(offset, place);
        self.put(self.header + place, table);
    }
}
