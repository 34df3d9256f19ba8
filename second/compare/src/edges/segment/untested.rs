//! What the segment query doesn't look at.

use super::{module, Judge};

pub fn edges(judge: &mut Judge) {
    other_segments(judge);
}

/// Only the segment asked for is checked.
fn other_segments(judge: &mut Judge) {
    let bad = [
        ("outside", [0xFFFF, 8, 0, 8], 9),
        ("records with sector 0", [0, 8, 0x0100, 8], 9),
        ("iterated", [144, 8, 8, 8], 10),
        ("allocation under", [144, 8, 0, 7], 11),
    ];
    for (name, words, refusal) in bad {
        let good = [144, 8, 0, 8];
        let values = [144, 8, 0, 8, 0];
        let second = module(&[good, words]).length(152);
        judge.accepts(&format!("1, while 2 is {name}"), &second, 1, values);
        judge.refuses(&format!("2 is {name}"), &second, 2, refusal);
        let first = module(&[words, good]).length(152);
        judge.accepts(&format!("2, while 1 is {name}"), &first, 2, values);
        judge.refuses(&format!("1 is {name}"), &first, 1, refusal);
    }
}
