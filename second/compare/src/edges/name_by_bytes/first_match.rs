//! The first match: resident before nonresident, and each list in its order.

use super::names::{both, list, resident, string};
use super::{finds, misses, Judge};

pub fn edges(judge: &mut Judge) {
    in_one_list(judge);
    resident_first(judge);
    beside_prefixes(judge);
    far_behind(judge);
}

/// Equal strings differ by their ordinal words.
fn in_one_list(judge: &mut Judge) {
    let names = list(&[b"M", b"S", b"S"]);
    finds(judge, "two", &resident(&names), b"S", [2, 133, 1, 2]);
    finds(
        judge,
        "two nonresident",
        &both(&[0], &names),
        b"S",
        [2, 134, 1, 2],
    );
    let names = list(&[b"M", b"A", b"S", b"B", b"S", b"S"]);
    finds(judge, "three", &resident(&names), b"S", [3, 137, 1, 3]);
    finds(
        judge,
        "three nonresident",
        &both(&[0], &names),
        b"S",
        [3, 138, 1, 3],
    );
    let names = list(&[b"S", b"A", b"S", b"S"]);
    finds(
        judge,
        "the first one too",
        &resident(&names),
        b"S",
        [3, 137, 1, 3],
    );
}

/// Wherever the lists stand in the image.
fn resident_first(judge: &mut Judge) {
    let (first, second) = (list(&[b"M", b"A", b"S"]), list(&[b"D", b"S"]));
    let image = both(&first, &second);
    finds(judge, "in both lists", &image, b"S", [3, 137, 1, 3]);
    // The nonresident list is the one at 128.
    let behind = image
        .ne_word(0x26, 77)
        .ne_word(0x20, 13)
        .ne_dword(0x2C, 128);
    finds(
        judge,
        "in both, resident behind",
        &behind,
        b"S",
        [2, 146, 1, 2],
    );
    finds(
        judge,
        "in the one before alone",
        &behind,
        b"A",
        [4, 133, 1, 2],
    );
    let only = both(&list(&[b"M", b"A"]), &second);
    finds(
        judge,
        "in the nonresident list alone",
        &only,
        b"S",
        [4, 142, 1, 2],
    );
}

/// What starts alike, or ends alike, isn't equal.
fn beside_prefixes(judge: &mut Judge) {
    let texts: [&[u8]; 8] = [
        b"M", b"ABCD", b"AB", b"XABC", b"BC", b"ABC", b"ABC", b"ABCD",
    ];
    let image = resident(&list(&texts));
    finds(judge, "ABCD", &image, b"ABCD", [2, 133, 4, 2]);
    finds(judge, "AB", &image, b"AB", [3, 140, 2, 3]);
    finds(judge, "BC", &image, b"BC", [5, 152, 2, 5]);
    finds(judge, "ABC", &image, b"ABC", [6, 157, 3, 6]);
    misses(judge, "A", &image, b"A");
    misses(judge, "ABCDE", &image, b"ABCDE");
    let both_lists = both(&list(&[b"M", b"ABCD"]), &list(&[b"D", b"AB", b"ABC"]));
    finds(
        judge,
        "ABC of two lists",
        &both_lists,
        b"ABC",
        [5, 150, 3, 3],
    );
    // A text that holds what looks like another string.
    let inner = list(&[b"M", b"Q\x01AZZ", b"A"]);
    finds(
        judge,
        "a string in a string",
        &resident(&inner),
        b"A",
        [3, 141, 1, 3],
    );
}

/// The match is the first of very many, or the last.
fn far_behind(judge: &mut Judge) {
    let many = string(b"x", 9).repeat(66_000);
    let before = [string(b"M", 0), string(b"y", 1), many.clone(), vec![0]].concat();
    let image = both(&before, &list(&[b"D", b"y"]));
    finds(judge, "before 66,000", &image, b"y", [2, 133, 1, 1]);
    finds(judge, "the first of 66,000", &image, b"x", [3, 137, 1, 9]);
    let behind = [string(b"M", 0), many, string(b"y", 1), vec![0]].concat();
    let image = both(&behind, &list(&[b"D", b"y"]));
    let fields = [66_002, 264_133, 1, 1];
    finds(judge, "behind 66,000", &image, b"y", fields);
}
