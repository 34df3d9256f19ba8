//! What the ordinal query doesn't look at.

use super::{ended, fixed, in_fixed, module, plain, Judge, PLAIN};

pub fn edges(judge: &mut Judge) {
    flags(judge);
    no_interrupt_in_fixed(judge);
    segment_records(judge);
}

/// Flag bytes may be anything, and are reported whole.
fn flags(judge: &mut Judge) {
    for flag in 0..=255 {
        let fixed = [1, 1, flag, 0x34, 0x12];
        let movable = [1, 255, flag, 0xCD, 0x3F, 1, 0x78, 0x56];
        let image = module(1, &ended(&[&fixed, &movable]));
        let reported = u32::from(flag);
        let name = format!("flag {flag:02X}h");
        judge.accepts(&name, &image, 1, [1, 0x1234, reported]);
        judge.accepts(&name, &image, 2, [1, 0x5678, reported]);
    }
}

/// Fixed bundles have no CDh 3Fh, and it means nothing there.
fn no_interrupt_in_fixed(judge: &mut Judge) {
    let with = module(1, &[1, 1, 7, 0xCD, 0x3F, 0]);
    judge.accepts("CDh 3Fh as an offset", &with, 1, [1, 0x3FCD, 7]);
    let two = module(1, &[2, 1, 7, 0xCD, 0x3F, 1, 9, 0, 0]);
    judge.accepts("a movable entry's bytes, 1", &two, 1, [1, 0x3FCD, 7]);
    judge.accepts("a movable entry's bytes, 2", &two, 2, [1, 9, 1]);
    let at_254 = module(254, &[1, 254, 0, 0, 0, 0]);
    judge.accepts("no CDh 3Fh with 254", &at_254, 1, [254, 0, 0]);
}

/// The segment's own record, its length and its allocation aren't read.
fn segment_records(judge: &mut Judge) {
    let records: [(&str, [u16; 4]); 5] = [
        ("outside", [0xFFFF, 8, 0, 8]),
        ("records with sector 0", [0, 8, 0x0100, 8]),
        ("iterated", [136, 8, 8, 8]),
        ("allocation under", [136, 8, 0, 7]),
        ("all bits", [0xFFFF; 4]),
    ];
    for (name, words) in records {
        let image = plain().record(128, words);
        judge.accepts(&format!("segment 1 is {name}"), &image, 1, PLAIN);
    }
    // The offset 3322h is past the segment's only byte.
    let short = module(1, &ended(&[&fixed(1, 1)])).record(128, [128, 1, 0, 1]);
    judge.accepts("an offset past the segment", &short, 1, in_fixed(1));
}
