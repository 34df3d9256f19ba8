//! P10 and P11 of document 01, and other small tables.

use super::{ended, fixed, module, movable, nulls, Judge, Minimal};

/// P10's table.
pub const P10: [u8; 16] = [
    0x01, 0x01, 0x01, 0x10, 0x00, 0x02, 0x00, 0x01, 0xFF, 0x03, 0xCD, 0x3F, 0x02, 0x20, 0x00, 0x00,
];
pub const OF_P10: &str = "ordinals 4\n1 1:0010 01\n4 2:0020 03\nend\n";

pub fn edges(judge: &mut Judge) {
    judge.lists("P10", &module(2, &P10), OF_P10);
    judge.lists("P11, byte count 15", &module(2, &P10[..15]), "refused 12\n");
    judge.lists("P11, byte count 0", &module(2, &[]), EMPTY);
    empty(judge);
    null(judge);
    bundles(judge);
}

const EMPTY: &str = "ordinals 0\nend\n";

fn empty(judge: &mut Judge) {
    judge.lists("no tables", &Minimal::new(), EMPTY);
    judge.lists("an end byte alone", &module(0, &[0]), EMPTY);
    judge.lists("bytes behind it", &module(2, &[0, 1, 200, 9]), EMPTY);
    let far = Minimal::new().ne_word(0x04, 0xFFFF);
    judge.lists("no bytes at FFFFh", &far, EMPTY);
}

/// They are counted and have no line.
fn null(judge: &mut Judge) {
    for (count, text) in [
        (1, "ordinals 1\nend\n"),
        (255, "ordinals 255\nend\n"),
        (256, "ordinals 256\nend\n"),
        (65_535, "ordinals 65535\nend\n"),
    ] {
        let image = module(0, &ended(&[&nulls(count)]));
        judge.lists(&format!("{count} null"), &image, text);
    }
    let behind = module(1, &ended(&[&fixed(1, 1), &nulls(2)]));
    judge.lists("null behind", &behind, "ordinals 3\n1 1:3322 11\nend\n");
}

/// Lines follow their ordinals through bundles of each kind.
fn bundles(judge: &mut Judge) {
    let table = ended(&[&fixed(2, 2), &nulls(1), &movable(1, 2), &fixed(1, 1)]);
    let text = "ordinals 6\n1 2:3322 11\n2 2:3322 11\n4 1:6655 44\n5 1:6655 44\n6 1:3322 11\nend\n";
    judge.lists("bundles of each kind", &module(2, &table), text);
}
