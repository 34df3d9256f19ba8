//! Refusal 17: an empty or over-long name asked for isn't found.

use super::names::{both, list, resident};
use super::{finds, misses, HeaderEdges, Judge, NameByBytes, Text};

pub fn edges(judge: &mut Judge) {
    empty(judge);
    about_255(judge);
    low_byte_of_the_length(judge);
    very_long(judge);
}

/// Also where a list holds nothing but its end byte, and at any address.
fn empty(judge: &mut Judge) {
    let images = [
        NameByBytes::plain(),
        resident(&[0]),
        both(&[0], &[0]),
        both(&list(&[b"M"]), &list(&[b"D"])),
        resident(&list(&[b"M", b"\0", b"\0\0"])),
    ];
    for image in &images {
        misses(judge, "no bytes", image, b"");
        for address in [0, 1, 2, 4_095, usize::MAX] {
            let name = format!("no bytes at {address:X}h");
            judge.refuses(&name, image, Text::NothingAt(address), 17);
        }
    }
    let unsound = resident(&[1]);
    judge.refuses("no bytes, 16", &unsound, Text::NothingAt(0), 16);
}

/// Prefixes of one long text; a list can hold the first 255 bytes of it.
fn about_255(judge: &mut Judge) {
    let long: Vec<u8> = (0..400).map(|at| (at % 251) as u8).collect();
    let lengths = [1, 2, 254, 255];
    let mut texts: Vec<&[u8]> = vec![&long[..3]];
    texts.extend(lengths.map(|length| &long[..length]));
    let image = resident(&list(&texts));
    let places = [135, 139, 144, 401];
    for ((length, at), number) in lengths.into_iter().zip(places).zip(2..) {
        let fields = [number, at, length as u32, number];
        finds(
            judge,
            &format!("{length} bytes"),
            &image,
            &long[..length],
            fields,
        );
    }
    for length in [0, 3, 4, 128, 253, 256, 257, 258, 300, 400] {
        misses(judge, &format!("{length} bytes"), &image, &long[..length]);
    }
}

/// Such a length would be a string's own if only its low byte counted.
fn low_byte_of_the_length(judge: &mut Judge) {
    let text = [b'w'; 65_536 + 260];
    let image = both(&list(&[b"M", b"w", b"www"]), &list(&[b"D", &text[..255]]));
    finds(judge, "1 byte", &image, &text[..1], [2, 133, 1, 2]);
    finds(judge, "3 bytes", &image, &text[..3], [3, 137, 3, 3]);
    finds(judge, "255 bytes", &image, &text[..255], [5, 148, 255, 2]);
    for length in [1, 3, 255] {
        for more in [256, 512, 65_536] {
            let name = format!("{more} bytes more than {length}");
            misses(judge, &name, &image, &text[..length + more]);
        }
    }
    misses(judge, "256 bytes", &image, &text[..256]);
    misses(judge, "65,536 bytes", &image, &text[..65_536]);
}

/// Longer than the image, and as long as the longest image.
fn very_long(judge: &mut Judge) {
    let image = NameByBytes::plain();
    let text = vec![b'A'; 16_777_216];
    for length in [142, 144, 145, 1_000_000, 16_777_216] {
        misses(judge, &format!("{length} bytes"), &image, &text[..length]);
    }
    // The image itself, and what it holds from the list on.
    misses(judge, "the whole image", &image, image.bytes());
    misses(judge, "the whole list", &image, &image.bytes()[128..137]);
}
