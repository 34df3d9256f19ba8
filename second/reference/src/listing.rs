//! The listing of a module's ordinals.

use crate::entry::{entries, Entry};
use crate::header::header;

/// The exact bytes of the listing program, each line with a newline.
pub fn listing(image: &[u8]) -> Vec<u8> {
    // Document 01: an image of at most 65,536 bytes, else the line `too long`.
    // Reading: before any refusal.
    if image.len() > 65_536 {
        return b"too long\n".to_vec();
    }
    text(image).into_bytes()
}

/// Writes the listing of an image of any length to the front of `room`, as
/// much of it as fits, and gives the length of the whole. Document 01: later
/// writers report their length and leave the rest unchanged.
pub fn list(image: &[u8], room: &mut [u8]) -> usize {
    let text = text(image);
    let fits = text.len().min(room.len());
    room[..fits].copy_from_slice(&text.as_bytes()[..fits]);
    text.len()
}

/// An image that a header or entry table check refuses gives one line.
fn text(image: &[u8]) -> String {
    match header(image).and_then(|header| entries(image, &header)) {
        Ok(entries) => lines(&entries),
        Err(number) => format!("refused {number}\n"),
    }
}

/// The lines of a sound table. The first number counts null ordinals too,
/// which have no line of their own. Ordinal and segment are decimal; offset
/// and flag are four and two uppercase hex digits.
fn lines(entries: &[Option<Entry>]) -> String {
    let mut text = format!("ordinals {}\n", entries.len());
    for (ordinal, entry) in (1..).zip(entries) {
        if let Some(entry) = entry {
            text += &line(ordinal, entry);
        }
    }
    text + "end\n"
}

/// One entry's line.
fn line(ordinal: u32, entry: &Entry) -> String {
    let Entry {
        segment,
        offset,
        flag,
    } = entry;
    format!("{ordinal} {segment}:{offset:04X} {flag:02X}\n")
}
