//! With an unsound header nothing resolves.

use super::super::fixups::{record, Record, FAR};
use super::super::minimal::Minimal;
use super::{asked, tables, Judge};
use crate::answer::Answer;
use crate::calls::Stepped;

pub fn edges(judge: &mut Judge) {
    for (name, image) in unsound() {
        for record in records() {
            let name = format!("{name}, {record:02X?}");
            judge.leaves(&name, &image, &asked(record, &[0xFF; 6]), &[0xFF; 6]);
        }
    }
    for (name, image) in sound() {
        let after = [0x09, 0x00, 0x00, 0x20, 0xFF, 0xFF];
        let request = asked(record(FAR, 0, 0, 1, 9), &[0xFF; 6]);
        judge.leaves(name, &image, &request, &after);
    }
    no_image(judge);
}

/// One for each way of resolving.
fn records() -> [Record; 4] {
    let far = |flags, first, last| record(FAR, flags, 0, first, last);
    [far(0, 1, 9), far(0, 255, 4), far(1, 1, 9), far(2, 1, 1)]
}

/// At the edge of each of 1 to 7.
fn unsound() -> Vec<(&'static str, Minimal)> {
    let image = || tables().image();
    let end = image().bytes().len() as u16;
    vec![
        ("no bytes", image().length(0)),
        ("63 bytes", image().length(63)),
        ("16,777,217 bytes", image().length(16_777_217)),
        ("ZM", image().put(0, b"ZM")),
        ("NE header at 63", image().put_dword(0x3C, 63)),
        (
            "NE header one past",
            image().put_dword(0x3C, u32::from(end) - 63),
        ),
        ("NE header that wraps", image().put_dword(0x3C, 0xFFFF_FFC0)),
        ("EN", image().put(64, b"EN")),
        ("shift 16", image().ne_word(0x32, 16)),
        ("segments outside", image().ne_word(0x1C, 0xFFFF)),
        ("modules outside", image().ne_word(0x1E, 0xFFFF)),
        ("entries outside", image().ne_word(0x06, 0xFFFF)),
        ("entries one past", image().ne_word(0x04, end - 64 - 15)),
        ("names outside", image().ne_word(0x20, 0xFFFF)),
    ]
}

/// On the other side of the edge.
fn sound() -> Vec<(&'static str, Minimal)> {
    let image = || tables().image();
    let end = image().bytes().len() as u16;
    vec![
        ("16,777,216 bytes", image().length(16_777_216)),
        ("shift 15", image().ne_word(0x32, 15)),
        ("entries that end it", image().ne_word(0x04, end - 64 - 16)),
        ("names to the end", image().ne_word(0x20, end)),
    ]
}

/// Wherever it is said to stand.
fn no_image(judge: &mut Judge) {
    let buffer = vec![0xFF; 6];
    let left = Answer::Accepted(Stepped { buffer });
    for address in [0, 1, usize::MAX] {
        for record in records() {
            let request = asked(record, &[0xFF; 6]);
            let name = format!("no bytes at address {address:X}h, {record:02X?}");
            judge.expects_of_nothing_at(&name, address, &request, &left);
        }
    }
}
