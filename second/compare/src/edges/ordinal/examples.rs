//! P10 and P11 of document 01.

use super::{module, Judge, Minimal};

const P10: [u8; 16] = [
    0x01, 0x01, 0x01, 0x10, 0x00, 0x02, 0x00, 0x01, 0xFF, 0x03, 0xCD, 0x3F, 0x02, 0x20, 0x00, 0x00,
];

pub fn edges(judge: &mut Judge) {
    p10(judge);
    p11(judge);
}

/// P10's bytes in a module of two segments, with this byte count.
fn counted(bytes: u16) -> Minimal {
    module(2, &P10).ne_word(0x06, bytes)
}

fn p10(judge: &mut Judge) {
    let image = counted(16);
    judge.accepts("P10, ordinal 1", &image, 1, [1, 0x0010, 1]);
    judge.accepts("P10, ordinal 4", &image, 4, [2, 0x0020, 3]);
    for number in [0, 2, 3, 5] {
        judge.refuses(&format!("P10, ordinal {number}"), &image, number, 15);
    }
    // The low words are 1 and 4.
    for number in [65_537, 65_540, 0x8000_0001, 0xFFFF_0004] {
        judge.refuses(&format!("P10, ordinal {number}"), &image, number, 15);
    }
    judge.refuses("P10, byte count 17", &counted(17), 1, 7);
}

fn p11(judge: &mut Judge) {
    judge.refuses_all("P11, byte count 15", &counted(15), 12);
    judge.refuses_all("P11, byte count 0", &counted(0), 15);
    for bytes in 1..15 {
        let name = format!("P10, byte count {bytes}");
        judge.refuses(&name, &counted(bytes), 1, 12);
    }
}
