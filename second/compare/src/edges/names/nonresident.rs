//! Refusal 16: the nonresident list ends inside its byte count.

use super::{both, list, string, Judge, Minimal, NameEdges};

pub fn edges<Q: NameEdges>(judge: &mut Judge<Q>) {
    every_size(judge);
    last_string(judge);
    image_goes_on(judge);
    ends_before_its_size(judge);
    greatest_size(judge);
    small_sizes(judge);
}

/// A resident list of a first string, and these nonresident names at 133.
fn nonresident(names: &[u8]) -> Minimal {
    both(&list(&[b"M"]), names)
}

/// The list is 11 bytes long. Its byte count says less, and the image either
/// ends there or goes on as before.
fn every_size<Q: NameEdges>(judge: &mut Judge<Q>) {
    let image = nonresident(&list(&[b"D", b"ABC"]));
    judge.holds("the end byte is the last", &image, b"ABC", [3, 138, 3, 2]);
    judge.lacks("size 0", &image.clone().ne_word(0x20, 0), 3, b"ABC");
    for size in 1..11 {
        let less = image.clone().ne_word(0x20, size);
        judge.refuses_all(&format!("size {size} of 11"), &less, 16);
        let cut = less.length(133 + usize::from(size));
        judge.refuses_all(&format!("size {size} of 11, cut"), &cut, 16);
    }
    let zeros = image.clone().length(1_000);
    judge.holds("1,000 bytes", &zeros, b"ABC", [3, 138, 3, 2]);
    judge.holds("size 12", &zeros.ne_word(0x20, 12), b"ABC", [3, 138, 3, 2]);
    judge.refuses_all("size 12 past the image", &image.ne_word(0x20, 12), 7);
}

/// The last string is of each length; the byte count ends in it.
fn last_string<Q: NameEdges>(judge: &mut Judge<Q>) {
    for length in [1, 2, 127, 128, 254, 255] {
        let text = vec![b'x'; length];
        let names = list(&[b"D", &text]);
        let name = format!("a last string of {length}");
        let whole = nonresident(&names);
        judge.holds(&name, &whole, &text, [3, 138, length as u32, 2]);
        for less in 1..=4 {
            let size = (names.len() - less) as u16;
            let short = whole.clone().ne_word(0x20, size).length(2_000);
            judge.refuses_all(&format!("{name}, {less} less"), &short, 16);
        }
    }
}

/// What stands behind the byte count in the image is no part of the list.
fn image_goes_on<Q: NameEdges>(judge: &mut Judge<Q>) {
    let strings = [string(b"D", 1), string(b"E", 2)].concat();
    let unended = nonresident(&strings);
    judge.refuses_all("no end byte", &unended, 16);
    let end_behind = unended.clone().length(142);
    judge.refuses_all("the end byte behind the size", &end_behind, 16);
    let more = unended.length(147).put(141, &list(&[b"EE"]));
    judge.refuses_all("a string and the end behind", &more, 16);
    // The last string's text ends with the size, its ordinal word doesn't.
    let ordinal = end_behind.clone().ne_word(0x20, 6);
    judge.refuses_all("the ordinal word behind the size", &ordinal, 16);
    let text = end_behind.ne_word(0x20, 5);
    judge.refuses_all("the text behind the size", &text, 16);
}

/// The bytes between the end byte and the size aren't read.
fn ends_before_its_size<Q: NameEdges>(judge: &mut Judge<Q>) {
    let ended = list(&[b"D", b"E"]);
    let behind: [&[u8]; 4] = [&[0xFF], &[1, b'F'], &[1, b'F', 3, 0, 0], &[0xFF; 300]];
    for bytes in behind {
        let image = nonresident(&[&ended[..], bytes].concat());
        let name = format!("{} bytes behind the end", bytes.len());
        judge.holds(&name, &image, b"E", [3, 138, 1, 2]);
        judge.lacks(&format!("{name}, F"), &image, 4, b"F");
        let empty = nonresident(&[&[0], bytes].concat());
        judge.lacks(&format!("{name} of an empty list"), &empty, 2, b"F");
    }
}

/// 65,535 bytes: "D", 253 strings of 258 bytes, one of 256 and the end byte.
fn greatest_size<Q: NameEdges>(judge: &mut Judge<Q>) {
    let strings = string(&[b'x'; 255], 7).repeat(253);
    let last = [b'y'; 253];
    let names = [string(b"D", 1), strings, string(&last, 9), vec![0]].concat();
    let image = nonresident(&names);
    judge.holds(
        "the last of 65,535 bytes",
        &image,
        &last,
        [256, 65_412, 253, 9],
    );
    let short = image.clone().ne_word(0x20, 65_534);
    judge.refuses_all("the end byte past 65,534", &short, 16);
    let goes_on = short.length(70_000);
    judge.refuses_all("the same in 70,000 bytes", &goes_on, 16);
}

/// With size 0 the place isn't looked at; with size 1 only an end byte fits.
fn small_sizes<Q: NameEdges>(judge: &mut Judge<Q>) {
    let of = |bytes: &[u8]| both(&super::SHORT, bytes);
    let fields = [2, 133, 1, 0x1234];
    judge.holds("size 1, end byte", &of(&[0]), b"A", fields);
    for byte in [1, 2, 0x80, 0xFF] {
        judge.refuses_all(&format!("size 1, {byte:X}h"), &of(&[byte]), 16);
        let size_0 = of(&[byte]).ne_word(0x20, 0);
        judge.holds(&format!("size 0, {byte:X}h"), &size_0, b"A", fields);
        let behind = of(&[0, byte]);
        judge.holds(&format!("size 2, 0 and {byte:X}h"), &behind, b"A", fields);
        let unended = of(&[byte, 0]);
        judge.refuses_all(&format!("size 2, {byte:X}h and 0"), &unended, 16);
    }
    for place in [
        0,
        63,
        137,
        138,
        0xFFFF,
        0x0100_0000,
        0x8000_0000,
        0xFFFF_FFFF,
    ] {
        let size_0 = of(&[]).ne_dword(0x2C, place);
        judge.holds(&format!("size 0 at {place:X}h"), &size_0, b"A", fields);
    }
}
