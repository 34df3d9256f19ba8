//! The longest listings that are known: an image of 65,536 bytes has room for
//! no more lines, and none with more bytes is known.
//!
//! A fixed bundle takes 3 bytes for a line, and 2 more for each 255. The MZ
//! header's 64 bytes can't be in the table, since its place counts from the NE
//! header; the NE header's own bytes can. What the header's fields say is then
//! read as entries or as null bundles.

use crate::images::Image;

const LONGEST_LISTED: usize = 65_536;
const NE: usize = 64;

pub fn images() -> [Image; 2] {
    [
        Image::new("by hand, the most lines", most_lines()),
        Image::new("by hand, the most bytes", most_bytes()),
    ]
}

/// 21,765 entries. With n entries the table takes at least 3n, 2 for each 255
/// begun, and an end byte. 21,766 would take 65,471 bytes, but from the header's
/// third byte on there are 65,470; before it "N" or "E" is a count that makes
/// one bundle more, for which there is no room either.
fn most_lines() -> Vec<u8> {
    let mut image = headers();
    // 90 entries of segment 1 lie over the header and the bytes behind it.
    image[NE + 0x02..NE + 0x04].copy_from_slice(&[90, 1]);
    put_word(&mut image, 0x04, 0x02);
    put_word(&mut image, 0x06, 65_470);
    put_word(&mut image, 0x1C, 1);
    let bundles: Vec<u8> = (0..85).flat_map(|number| bundle(1, 255, number)).collect();
    put(&mut image, NE + 0x02 + 2 + 3 * 90, &bundles);
    image
}

/// 391,296 bytes. A line has 18 where its ordinal has five digits and its
/// segment three, so null bundles use up the ordinals under 10,000, at 2 bytes
/// for 255 of them. No image with a longer listing is known.
fn most_bytes() -> Vec<u8> {
    let mut image = headers();
    // From "E", 69, on: 69 null ordinals, and an entry of segment 1, which is
    // the table's place, over the table's place and size.
    image[NE + 0x02..NE + 0x04].copy_from_slice(&[0, 1]);
    put_word(&mut image, 0x04, 0x01);
    put_word(&mut image, 0x06, 65_471);
    // Null bundles that are counts, sizes and places of 255.
    put(&mut image, NE + 0x08, &[255, 0].repeat(18));
    // Two entries over the nonresident place, FA02h, and the shift.
    put(&mut image, NE + 0x2C, &[2, 250]);
    let mut table = [255, 0].repeat(21);
    table.extend((0..85).flat_map(|number| bundle(250, 255, number)));
    table.extend(bundle(250, 60, 85));
    put(&mut image, NE + 0x34, &table);
    image
}

/// 65,536 bytes with both signatures and the NE header right behind the first.
fn headers() -> Vec<u8> {
    let mut image = vec![0; LONGEST_LISTED];
    put(&mut image, 0, b"MZ");
    put(&mut image, 0x3C, &[NE as u8]);
    put(&mut image, NE, b"NE");
    image
}

/// Entries that differ from each other, bundle by bundle too.
fn bundle(segment: u8, count: u8, number: u16) -> Vec<u8> {
    let mut bytes = vec![count, segment];
    for entry in 0..count {
        let offset = (u16::from(entry) * 257).wrapping_add(number * 771);
        bytes.push(entry.wrapping_add(number as u8));
        bytes.extend(offset.to_le_bytes());
    }
    bytes
}

/// A word of the NE header.
fn put_word(image: &mut [u8], offset: usize, word: u16) {
    put(image, NE + offset, &word.to_le_bytes());
}

fn put(image: &mut [u8], at: usize, bytes: &[u8]) {
    image[at..at + bytes.len()].copy_from_slice(bytes);
}
