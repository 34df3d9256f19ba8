//! Two checks that fail at once: the earlier one decides.

use super::{both, list, Judge, NameEdges};

pub fn edges<Q: NameEdges>(judge: &mut Judge<Q>) {
    after_7(judge);
    resident_unsound(judge);
    nonresident_unsound(judge);
}

/// A list that doesn't end.
const UNENDED: [u8; 5] = [1, b'A', 1, 0, 1];

/// The header's checks come before the lists are looked at.
fn after_7<Q: NameEdges>(judge: &mut Judge<Q>) {
    let unsound = [
        ("resident", both(&[1], &[])),
        ("nonresident", both(&list(&[b"M", b"A"]), &UNENDED)),
    ];
    for (list, image) in unsound {
        judge.refuses_all(&format!("{list} 16 alone"), &image, 16);
        let long = image.ne_word(0x1E, 0xFFFF);
        judge.refuses_all(&format!("7 before {list} 16"), &long, 7);
        let shifted = long.ne_word(0x32, 16);
        judge.refuses_all(&format!("6 before {list} 16"), &shifted, 6);
    }
}

/// Whatever is asked for, in the sound list too, and whatever isn't there.
fn resident_unsound<Q: NameEdges>(judge: &mut Judge<Q>) {
    let sound = list(&[b"D", b"A", b"B"]);
    // The resident list's only string would reach over the other list and past
    // the image.
    let image = both(&[200], &sound);
    judge.refuses_all("16 of the resident list", &image, 16);
    // The resident list ends the image, and the other one stands before it.
    let behind = both(&sound, &UNENDED);
    let swapped = behind
        .ne_word(0x26, 64 + sound.len() as u16)
        .ne_dword(0x2C, 128)
        .ne_word(0x20, sound.len() as u16);
    judge.refuses_all("16 behind a sound nonresident list", &swapped, 16);
    for (number, text) in [(1, b"D"), (2, b"A"), (3, b"B"), (4, b"C")] {
        let request = Q::request_for(number, text);
        judge.refuses(&format!("16, {number}"), &swapped, request, 16);
    }
}

/// The name asked for stands in the resident list, which is sound.
fn nonresident_unsound<Q: NameEdges>(judge: &mut Judge<Q>) {
    let sound = list(&[b"M", b"A", b"B"]);
    for size in 1..=UNENDED.len() {
        let image = both(&sound, &UNENDED[..size]);
        let name = format!("16 of {size} nonresident bytes");
        judge.refuses_all(&name, &image, 16);
        for (number, text) in [(1, b"M"), (2, b"A"), (3, b"B"), (4, b"C")] {
            let request = Q::request_for(number, text);
            judge.refuses(&format!("{name}, {number}"), &image, request, 16);
        }
    }
    let image = both(&sound, &[0]);
    judge.holds("A, where both are sound", &image, b"A", [2, 133, 1, 2]);
}
