//! Refusal 17: a name is found by its exact bytes only.

use super::names::{both, list, resident, string};
use super::{finds, misses, Judge};

pub fn edges(judge: &mut Judge) {
    nearly_equal(judge);
    each_bit(judge);
    every_byte(judge);
    case(judge);
    at_either_end(judge);
}

/// In each list; what stands about the text in the image isn't part of it.
fn nearly_equal(judge: &mut Judge) {
    let names = [string(b"M", 0), string(b"ABC", 0x3231), vec![0]].concat();
    let images = [
        resident(&names),
        both(&[0], &names),
        both(&list(&[b"N"]), &names),
    ];
    let found = [
        [2, 133, 3, 0x3231],
        [2, 134, 3, 0x3231],
        [3, 138, 3, 0x3231],
    ];
    for (image, fields) in images.iter().zip(found) {
        finds(judge, "ABC", image, b"ABC", fields);
        let others: [&[u8]; 20] = [
            b"A", b"AB", b"BC", b"B", b"C", b"ABCD", b"ABCA", b"AABC", b"ABC\0", b"\0ABC", b"ABC ",
            b"ABC1", b"ABC12", b"\x03ABC", b"\x03AB", b"CBA", b"ACB", b"A C", b"A*C", b"ABCABC",
        ];
        for other in others {
            let name = format!("\"{}\" where ABC is", other.escape_ascii());
            misses(judge, &name, image, other);
        }
    }
}

/// Any bit of any byte makes another name.
fn each_bit(judge: &mut Judge) {
    let text = [b'K', 0x00, 0xFF, 0x80, b'z'];
    let image = resident(&list(&[b"M", &text]));
    finds(judge, "five bytes", &image, &text, [2, 133, 5, 2]);
    for at in 0..text.len() {
        for bit in 0..8 {
            let mut other = text;
            other[at] ^= 1 << bit;
            misses(judge, &format!("bit {bit} of byte {at}"), &image, &other);
        }
    }
}

/// Names of one byte: each of the 256.
fn every_byte(judge: &mut Judge) {
    let bytes: Vec<[u8; 1]> = (0..=255).map(|byte| [byte]).collect();
    let mut texts: Vec<&[u8]> = vec![b"first"];
    texts.extend(bytes.iter().map(|byte| &byte[..]));
    let resident_list = resident(&list(&texts));
    let nonresident_list = both(&[0], &list(&texts));
    for byte in 0..=255 {
        let number = u32::from(byte) + 2;
        let name = format!("{byte:02X}h");
        let at = 137 + 4 * u32::from(byte);
        finds(
            judge,
            &name,
            &resident_list,
            &[byte],
            [number, at, 1, number],
        );
        finds(
            judge,
            &name,
            &nonresident_list,
            &[byte],
            [number, at + 1, 1, number],
        );
        // The same in front of and behind another byte isn't there.
        misses(judge, &name, &resident_list, &[byte, 0]);
        misses(judge, &name, &resident_list, &[0, byte]);
    }
}

/// Letters differ by their case, and nothing else is folded.
fn case(judge: &mut Judge) {
    let image = resident(&list(&[b"M", b"Name", b"NAME", b"\xC4", b"["]));
    finds(judge, "Name", &image, b"Name", [2, 133, 4, 2]);
    finds(judge, "NAME", &image, b"NAME", [3, 140, 4, 3]);
    finds(judge, "C4h", &image, b"\xC4", [4, 147, 1, 4]);
    finds(judge, "5Bh", &image, b"[", [5, 151, 1, 5]);
    let others: [&[u8]; 7] = [b"name", b"nAME", b"NAMe", b"\xE4", b"\x8E", b"{", b"\x84"];
    for other in others {
        let name = format!("\"{}\" of another case", other.escape_ascii());
        misses(judge, &name, &image, other);
    }
}

/// Long names that differ in their first or last byte alone.
fn at_either_end(judge: &mut Judge) {
    for length in [2, 127, 128, 129, 254, 255] {
        let text = vec![b'q'; length];
        let mut first = text.clone();
        first[0] = b'Q';
        let mut last = text.clone();
        last[length - 1] = b'Q';
        let image = resident(&list(&[b"M", &first, &last, &text]));
        let size = length as u32 + 3;
        let name = format!("{length} bytes");
        let fields = |number: u32| [number, 133 + (number - 2) * size, length as u32, number];
        finds(
            judge,
            &format!("{name}, Q first"),
            &image,
            &first,
            fields(2),
        );
        finds(judge, &format!("{name}, Q last"), &image, &last, fields(3));
        finds(judge, &format!("{name}, no Q"), &image, &text, fields(4));
        misses(judge, &format!("{name}, one less"), &image, &text[1..]);
        let more = [&text[..], b"q"].concat();
        misses(judge, &format!("{name}, one more"), &image, &more);
    }
}
