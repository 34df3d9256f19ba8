//! Lists that are empty, or have a first string alone.

use super::{both, list, resident, Judge, Minimal, NameEdges};

pub fn edges<Q: NameEdges>(judge: &mut Judge<Q>) {
    both_empty(judge);
    one_empty(judge);
    bytes_behind_the_end(judge);
}

/// No names at all: 8 or 17, whatever is asked for.
fn both_empty<Q: NameEdges>(judge: &mut Judge<Q>) {
    judge.refuses_all("an end byte and size 0", &resident(&[0]), Q::NOT_THERE);
    judge.refuses_all("two end bytes", &both(&[0], &[0]), Q::NOT_THERE);
    let shared = resident(&[0]).ne_word(0x20, 1).ne_dword(0x2C, 128);
    judge.refuses_all("one end byte for both", &shared, Q::NOT_THERE);
    let far = resident(&[0]).ne_dword(0x2C, 0xFFFF_FFFF);
    judge.refuses_all("size 0 at FFFFFFFFh", &far, Q::NOT_THERE);
    let in_header = Minimal::new().ne_word(0x26, 0x3F);
    judge.refuses_all("the NE header's last byte", &in_header, Q::NOT_THERE);
}

/// The other list is numbered from 1, or is the whole.
fn one_empty<Q: NameEdges>(judge: &mut Judge<Q>) {
    let names = list(&[b"M", b"A", b"B"]);
    let only_resident = both(&names, &[0]);
    judge.holds("A, nonresident empty", &only_resident, b"A", [2, 133, 1, 2]);
    judge.holds("B, nonresident empty", &only_resident, b"B", [3, 137, 1, 3]);
    judge.lacks("C, nonresident empty", &only_resident, 4, b"C");
    let only_nonresident = both(&[0], &names);
    judge.holds("A, resident empty", &only_nonresident, b"A", [2, 134, 1, 2]);
    judge.holds("B, resident empty", &only_nonresident, b"B", [3, 138, 1, 3]);
    judge.lacks("C, resident empty", &only_nonresident, 4, b"C");
}

/// What stands behind the resident end byte is no part of the list.
fn bytes_behind_the_end<Q: NameEdges>(judge: &mut Judge<Q>) {
    let behind: [&[u8]; 4] = [&[0xFF], &[1, b'A'], &[1, b'A', 1, 0, 0], &[0xFF; 600]];
    for bytes in behind {
        let image = resident(&[&[0], bytes].concat());
        let name = format!("{} bytes behind the end byte", bytes.len());
        judge.refuses_all(&name, &image, Q::NOT_THERE);
        let names = resident(&[&list(&[b"M", b"B"])[..], bytes].concat());
        judge.holds(&name, &names, b"B", [2, 133, 1, 2]);
        judge.lacks(&name, &names, 3, b"A");
    }
}
