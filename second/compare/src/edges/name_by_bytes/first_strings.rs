//! Refusal 17: each list's first string can't be found by its bytes.

use super::names::{both, list, resident};
use super::{finds, misses, Judge};

pub fn edges(judge: &mut Judge) {
    alone(judge);
    equal_later(judge);
    one_in_each(judge);
    of_shared_bytes(judge);
}

fn alone(judge: &mut Judge) {
    let image = resident(&list(&[b"FIRST"]));
    misses(judge, "a resident first string", &image, b"FIRST");
    let image = both(&[0], &list(&[b"FIRST"]));
    misses(judge, "a nonresident first string", &image, b"FIRST");
    let image = both(&list(&[b"FIRST"]), &list(&[b"FIRST"]));
    misses(judge, "both first strings", &image, b"FIRST");
    let others = list(&[b"FIRST", b"A", b"B"]);
    misses(judge, "before others", &resident(&others), b"FIRST");
    misses(
        judge,
        "before other nonresident ones",
        &both(&[0], &others),
        b"FIRST",
    );
    let image = both(&others, &others);
    misses(judge, "before others in both", &image, b"FIRST");
}

/// A later string that equals a first one is found.
fn equal_later(judge: &mut Judge) {
    let image = resident(&list(&[b"S", b"S"]));
    finds(judge, "the second", &image, b"S", [2, 133, 1, 2]);
    let image = resident(&list(&[b"S", b"A", b"S"]));
    finds(judge, "the third", &image, b"S", [3, 137, 1, 3]);
    let image = both(&[0], &list(&[b"S", b"S"]));
    finds(
        judge,
        "the second nonresident",
        &image,
        b"S",
        [2, 134, 1, 2],
    );
    let image = both(&list(&[b"S", b"A"]), &list(&[b"D", b"S"]));
    finds(
        judge,
        "the resident first, later",
        &image,
        b"S",
        [4, 142, 1, 2],
    );
    let image = both(&list(&[b"M", b"S"]), &list(&[b"S", b"A"]));
    finds(
        judge,
        "the nonresident first, before",
        &image,
        b"S",
        [2, 133, 1, 2],
    );
    let image = both(&list(&[b"S"]), &list(&[b"S", b"S"]));
    finds(
        judge,
        "behind two first strings",
        &image,
        b"S",
        [3, 138, 1, 2],
    );
}

/// One is skipped in each list, and no more than one.
fn one_in_each(judge: &mut Judge) {
    let image = both(&list(&[b"M", b"A"]), &list(&[b"D", b"B"]));
    misses(judge, "M of four", &image, b"M");
    finds(judge, "A of four", &image, b"A", [2, 133, 1, 2]);
    misses(judge, "D of four", &image, b"D");
    finds(judge, "B of four", &image, b"B", [4, 142, 1, 2]);
    // An empty resident list has no first string, and the other still has.
    let image = both(&[0], &list(&[b"D", b"B"]));
    misses(judge, "D behind an empty list", &image, b"D");
    finds(
        judge,
        "B behind an empty list",
        &image,
        b"B",
        [2, 134, 1, 2],
    );
    let image = both(&list(&[b"M", b"A"]), &[0]);
    misses(judge, "M before an empty list", &image, b"M");
    finds(
        judge,
        "A before an empty list",
        &image,
        b"A",
        [2, 133, 1, 2],
    );
}

/// Both lists have the same bytes, or one has the end of the other.
fn of_shared_bytes(judge: &mut Judge) {
    let shared = resident(&list(&[b"M", b"A"]));
    let shared = shared.ne_word(0x20, 9).ne_dword(0x2C, 128);
    misses(judge, "M of one list for both", &shared, b"M");
    finds(
        judge,
        "A of one list for both",
        &shared,
        b"A",
        [2, 133, 1, 2],
    );
    // The other list starts at the second string, which only the first one has.
    let tail = resident(&list(&[b"M", b"A", b"B"]));
    let tail = tail.ne_word(0x26, 68).ne_word(0x20, 13).ne_dword(0x2C, 128);
    finds(
        judge,
        "A of a tail and its list",
        &tail,
        b"A",
        [4, 133, 1, 2],
    );
    finds(
        judge,
        "B of a tail and its list",
        &tail,
        b"B",
        [2, 137, 1, 3],
    );
}
