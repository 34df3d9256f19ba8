//! The five values of a resource, and the order in which they stand.

use super::{block, module, table, Judge, ResourceEdges};

pub fn edges<Q: ResourceEdges>(judge: &mut Judge<Q>) {
    across_blocks(judge);
    each_word(judge);
    types(judge);
}

/// All types together are counted, in file order.
fn across_blocks<Q: ResourceEdges>(judge: &mut Judge<Q>) {
    let blocks = [
        block(0x8009, &[[10, 1, 0x11, 0x8001], [11, 2, 0x12, 0x8002]]),
        block(0x8005, &[]),
        block(0x8001, &[[12, 3, 0x13, 0x8009]]),
        block(
            0x9000,
            &[
                [13, 4, 0x14, 0xFFFF],
                [14, 5, 0x15, 0x8000],
                [15, 6, 0x16, 0x8001],
            ],
        ),
    ];
    let image = module(&table(0, &blocks));
    let held = [
        [0x8009, 0x8001, 0x11, 10, 1],
        [0x8009, 0x8002, 0x12, 11, 2],
        [0x8001, 0x8009, 0x13, 12, 3],
        [0x9000, 0xFFFF, 0x14, 13, 4],
        [0x9000, 0x8000, 0x15, 14, 5],
        [0x9000, 0x8001, 0x16, 15, 6],
    ];
    for (number, fields) in (1..).zip(held) {
        judge.gives(&format!("{number} of 6"), &image, number, fields);
    }
    judge.refuses_one("7 of 6", &image, 7, [0x8005, 0x8001], Q::NOT_THERE);
}

/// Each word is reported whole, low byte first; flags aren't tested.
fn each_word<Q: ResourceEdges>(judge: &mut Judge<Q>) {
    for word in [0, 1, 0x00FF, 0x0100, 0x1234, 0x7FFF, 0x8000, 0xFF00, 0xFFFF] {
        let number = u32::from(word);
        let flags = module(&table(0, &[block(0x8001, &[[1, 2, word, 0x8002]])]));
        let name = format!("flags {word:X}h");
        judge.gives(&name, &flags, 1, [0x8001, 0x8002, number, 1, 2]);
        // Data of any place and length in 140,000 bytes.
        let place = module(&table(0, &[block(0x8001, &[[word, 2, 3, 0x8002]])]));
        let name = format!("offset {word:X}h");
        let fields = [0x8001, 0x8002, 3, number, 2];
        judge.gives(&name, &place.length(140_000), 1, fields);
        let length = module(&table(0, &[block(0x8001, &[[1, word, 3, 0x8002]])]));
        let name = format!("length {word:X}h");
        let fields = [0x8001, 0x8002, 3, 1, number];
        judge.gives(&name, &length.length(140_000), 1, fields);
    }
}

/// Types and ids with the high bit: each bit beside it.
fn types<Q: ResourceEdges>(judge: &mut Judge<Q>) {
    for bit in 0..15 {
        let word = 0x8000 | 1 << bit;
        let image = module(&table(0, &[block(word, &[[1, 2, 3, !word | 0x8000]])]));
        let fields = [u32::from(word), u32::from(!word | 0x8000), 3, 1, 2];
        judge.gives(&format!("type {word:X}h"), &image, 1, fields);
    }
}
