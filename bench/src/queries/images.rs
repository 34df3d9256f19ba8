//! The images: one table as long as it may be.

use super::{Ask, Subject};
use crate::inputs::module::Module;
use crate::inputs::noise::Noise;
use crate::slowest::{entry_tables, Size};
use std::iter::repeat_n;

/// The NE header's place.
const HEADER: usize = 64;
/// Entry tables that leave room for the rest of an image of 65,536 bytes, the
/// longest that the second program lists.
const ENTRY_TABLE: usize = 64_800;

/// Names whose texts have from `least` to `most` bytes, all the same.
pub fn names(length: usize, (least, most): (usize, usize)) -> Subject {
    let mut noise = Noise::new(11);
    let mut image = headers(0x26);
    // The nonresident names are the last of the resident ones over again.
    let mut nonresident = image.len();
    loop {
        let text = least + noise.below(most - least + 1);
        if image.len() + text + 4 > length {
            break;
        }
        image.push(text as u8);
        image.extend(repeat_n(b'A', text));
        image.extend([1, 0]);
        if length - nonresident > 65_535 {
            nonresident = image.len();
        }
    }
    image.push(0);
    let size = image.len() - nonresident;
    image[HEADER + 0x2C..][..4].copy_from_slice(&(nonresident as u32).to_le_bytes());
    image[HEADER + 0x20..][..2].copy_from_slice(&(size as u16).to_le_bytes());
    image.resize(length, 0);
    let mut name = vec![b'A'; least];
    name[least - 1] = b'B';
    Subject {
        name: format!("names of {}", range(least, most)),
        image,
        asks: vec![Ask::NameByNumber(u32::MAX), Ask::NameByBytes(name)],
    }
}

/// Blocks with so many resources, all of one id. Where their counts differ, so do
/// their types.
pub fn resources(length: usize, (least, most): (usize, usize)) -> Subject {
    let mut noise = Noise::new(12);
    let types = if least == most { 1 } else { 2 };
    let mut image = headers(0x24);
    image.extend([0, 0]);
    loop {
        let count = least + noise.below(most - least + 1);
        if image.len() + 8 + 12 * count + 2 > length {
            break;
        }
        image.extend([1 + noise.below(types) as u8, 0x80]);
        image.extend((count as u16).to_le_bytes());
        image.extend([0; 4]);
        image.extend([0, 0, 0, 0, 0, 0, 0x01, 0x80, 0, 0, 0, 0].repeat(count));
    }
    image.resize(length, 0);
    Subject {
        name: format!("blocks of {} resources", range(least, most)),
        image,
        asks: vec![
            Ask::ResourceByNumber(u32::MAX),
            Ask::ResourceByWords(0x8001, 0x8002),
        ],
    }
}

/// Entry tables.
pub fn entries() -> impl Iterator<Item = Subject> {
    let size = Size {
        table: ENTRY_TABLE,
        ..Size::LARGEST
    };
    entry_tables(size).into_iter().map(|(name, table)| {
        let mut module = Module::new(0);
        module.entries = table.bytes;
        let last = table.ordinals.last().copied().unwrap_or(0);
        Subject {
            name: format!("ordinals: {}", name.trim_end_matches(", ")),
            image: module.image().0,
            asks: vec![Ask::Ordinal(last.into()), Ask::List],
        }
    })
}

/// Both headers; this field of the second has the place behind it.
fn headers(field: usize) -> Vec<u8> {
    let mut image = vec![0; HEADER + 64];
    image[..2].copy_from_slice(b"MZ");
    image[0x3C] = HEADER as u8;
    image[HEADER..][..2].copy_from_slice(b"NE");
    image[HEADER + field] = 64;
    image
}

fn range(least: usize, most: usize) -> String {
    match least == most {
        true => least.to_string(),
        false => format!("{least} to {most}"),
    }
}
