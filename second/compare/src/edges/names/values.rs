//! The four values of a name.

use super::{both, list, resident, string, Judge, NameEdges};

pub fn edges<Q: NameEdges>(judge: &mut Judge<Q>) {
    numbers_go_on(judge);
    lengths(judge);
    every_length(judge);
    ordinals(judge);
}

/// The resident list is counted first, first strings included.
fn numbers_go_on<Q: NameEdges>(judge: &mut Judge<Q>) {
    let image = both(&list(&[b"M", b"A", b"BB"]), &list(&[b"D", b"CCC", b"E"]));
    judge.holds("the second resident", &image, b"A", [2, 133, 1, 2]);
    judge.holds("the last resident", &image, b"BB", [3, 137, 2, 3]);
    // The nonresident list stands at 142.
    judge.holds("the second nonresident", &image, b"CCC", [5, 147, 3, 2]);
    judge.holds("the last nonresident", &image, b"E", [6, 153, 1, 3]);
    judge.lacks("past the last", &image, 7, b"F");
    let firsts = both(&list(&[b"M"]), &list(&[b"D", b"A"]));
    judge.holds("behind two first strings", &firsts, b"A", [3, 138, 1, 2]);
}

/// Each string's length decides where the next one stands.
fn lengths<Q: NameEdges>(judge: &mut Judge<Q>) {
    let texts: [&[u8]; 6] = [
        &[b'm'; 255],
        &[b'a'; 255],
        b"b",
        &[b'c'; 254],
        b"dd",
        &[b'e'; 128],
    ];
    let image = both(&list(&texts), &list(&texts[..1]));
    judge.holds("255 bytes", &image, texts[1], [2, 387, 255, 2]);
    judge.holds("1 byte behind 255", &image, texts[2], [3, 645, 1, 3]);
    judge.holds("254 bytes", &image, texts[3], [4, 649, 254, 4]);
    judge.holds("2 bytes behind 254", &image, texts[4], [5, 906, 2, 5]);
    judge.holds("128 bytes", &image, texts[5], [6, 911, 128, 6]);
    judge.lacks("past the lists", &image, 8, b"ff");
}

/// 1 to 255 bytes, each as a string of its own.
fn every_length<Q: NameEdges>(judge: &mut Judge<Q>) {
    for length in 1..=255 {
        let text = vec![b'T'; length];
        let image = resident(&[string(b"M", 0), string(&text, 0x0102), vec![0]].concat());
        let fields = [2, 133, length as u32, 0x0102];
        judge.holds(&format!("{length} bytes"), &image, &text, fields);
    }
}

/// The ordinal word isn't tested and is reported whole, low byte first.
fn ordinals<Q: NameEdges>(judge: &mut Judge<Q>) {
    for ordinal in [
        0, 1, 0x00FF, 0x0100, 0x1234, 0x7FFF, 0x8000, 0xFF00, 0xFFFE, 0xFFFF,
    ] {
        let names = [string(b"M", 0), string(b"AB", ordinal), vec![0]].concat();
        let reported = u32::from(ordinal);
        let name = format!("ordinal {ordinal:X}h");
        judge.holds(&name, &resident(&names), b"AB", [2, 133, 2, reported]);
        let other = both(&[0], &names);
        let name = format!("nonresident ordinal {ordinal:X}h");
        judge.holds(&name, &other, b"AB", [2, 134, 2, reported]);
    }
}
