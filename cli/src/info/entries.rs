//! The entry points' section, from the listing: one pass over their table.

use super::section::{Row, Section};
use crate::describe;
use crate::tables;
use parchgable::{Entry, Image};

pub fn section(image: Image) -> Section {
    let refused = tables::entries(image).err();
    let listing = String::from_utf8_lossy(&image.list()).into_owned();
    Section {
        title: "Entry points",
        columns: "  ordinal  segment  offset  flag".to_string(),
        rows: listing.lines().filter_map(row).collect(),
        refused,
        more: false,
    }
}

/// The row of a listing's line, if it has an entry point. The lines are
/// `ordinals 4`, then `1 1:0010 01` for each entry point, then `end`.
fn row(line: &str) -> Option<Row> {
    let mut parts = line.split([' ', ':']);
    let ordinal = parts.next()?.parse().ok()?;
    let entry = Entry {
        segment: parts.next()?.parse().ok()?,
        offset: u16::from_str_radix(parts.next()?, 16).ok()?,
        flag: u8::from_str_radix(parts.next()?, 16).ok()?,
    };
    let Entry {
        segment,
        offset,
        flag,
    } = entry;
    Some(Row {
        text: format!("  {ordinal:>7}  {segment:>7}  0x{offset:04X}  0x{flag:02X}"),
        object: describe::entry(ordinal, &entry),
    })
}
