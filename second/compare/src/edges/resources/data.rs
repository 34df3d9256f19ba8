//! Refusal 20: the data of the resource that was found leaves the image.

use super::{block, fields, module, one, table, Judge, Minimal, ResourceEdges};

pub fn edges<Q: ResourceEdges>(judge: &mut Judge<Q>) {
    ends(judge);
    both_are_shifted(judge);
    past_16_bits(judge);
    sixteen_megabytes(judge);
    great_sums(judge);
    overlaps(judge);
}

/// The words that are asked for.
const ASKED: [u32; 2] = [0x8001, 0x8002];

fn refused<Q: ResourceEdges>(judge: &mut Judge<Q>, name: &str, image: &Minimal) {
    judge.refuses_one(name, image, 1, ASKED, 20);
}

/// Shift 0 in an image of 160 bytes.
fn ends<Q: ResourceEdges>(judge: &mut Judge<Q>) {
    let at = |offset, length| one(0, offset, length).length(160);
    let inside = [
        (152, 8),
        (159, 1),
        (160, 0),
        (159, 0),
        (0, 160),
        (0, 0),
        (1, 159),
    ];
    for (offset, length) in inside {
        let name = format!("{length} bytes at {offset} of 160");
        let found = fields(u32::from(offset), u32::from(length));
        judge.gives(&name, &at(offset, length), 1, found);
    }
    let outside = [
        (152, 9),
        (153, 8),
        (159, 2),
        (160, 1),
        (161, 0),
        (161, 1),
        (0, 161),
        (1, 160),
        (0, 0xFFFF),
        (0xFFFF, 0),
        (0xFFFF, 1),
        (0xFFFF, 0xFFFF),
        (0xFF60, 0x0100),
    ];
    for (offset, length) in outside {
        let name = format!("{length} bytes at {offset} of 160");
        refused(judge, &name, &at(offset, length));
    }
}

/// Offset and length are in units of the same shift.
fn both_are_shifted<Q: ResourceEdges>(judge: &mut Judge<Q>) {
    for shift in [1, 2, 4, 9, 12, 15] {
        let unit = 1 << shift;
        let bytes = unit as u32;
        let extents = [(100, 3), (1, 102), (103, 0), (0, 103)];
        for (offset, length) in extents {
            let name = format!("{length} units at {offset}, shift {shift}");
            let whole = one(shift, offset, length).length(103 * unit);
            let found = fields(u32::from(offset) * bytes, u32::from(length) * bytes);
            judge.gives(&name, &whole, 1, found);
            let short = whole.length(103 * unit - 1);
            refused(judge, &format!("{name}, one less"), &short);
        }
    }
}

/// Places and lengths past 65,535; the products don't wrap.
fn past_16_bits<Q: ResourceEdges>(judge: &mut Judge<Q>) {
    let at = |offset, length, end| one(1, offset, length).length(end);
    let found = fields(65_536, 8);
    judge.gives("8 bytes at 10000h", &at(0x8000, 4, 65_544), 1, found);
    refused(judge, "the same, one past", &at(0x8000, 4, 65_543));
    refused(judge, "the same in 152 bytes", &at(0x8000, 4, 152));
    let found = fields(8, 65_536);
    judge.gives("10000h bytes at 8", &at(4, 0x8000, 65_544), 1, found);
    refused(judge, "the same, one past", &at(4, 0x8000, 65_543));
    refused(judge, "the same in 152 bytes", &at(4, 0x8000, 152));
    let found = fields(131_070, 131_070);
    judge.gives("1FFFEh at 1FFFEh", &at(0xFFFF, 0xFFFF, 262_140), 1, found);
    refused(judge, "the same, one past", &at(0xFFFF, 0xFFFF, 262_139));
}

fn sixteen_megabytes<Q: ResourceEdges>(judge: &mut Judge<Q>) {
    let at = |shift, offset, length| one(shift, offset, length).length(16_777_216);
    let found = fields(16_776_960, 256);
    judge.gives("the last 256 of 16 MB", &at(8, 0xFFFF, 1), 1, found);
    refused(judge, "512 bytes, 256 past 16 MB", &at(8, 0xFFFF, 2));
    let found = fields(16_777_216, 0);
    judge.gives("none at the end of 16 MB", &at(9, 0x8000, 0), 1, found);
    refused(judge, "512 bytes there", &at(9, 0x8000, 1));
    refused(judge, "none past it", &at(9, 0x8001, 0));
    let found = fields(0, 16_777_216);
    judge.gives("all of 16 MB", &at(9, 0, 0x8000), 1, found);
    refused(judge, "all of it and 512", &at(9, 0, 0x8001));
    refused(judge, "all of it from 512 on", &at(9, 1, 0x8000));
    // The low 24 bits of these places are 0.
    refused(judge, "none at 2000000h", &at(15, 0x0400, 0));
    refused(judge, "32,768 bytes at 2000000h", &at(15, 0x0400, 1));
}

/// With shift 15 the ends need 32 bits.
fn great_sums<Q: ResourceEdges>(judge: &mut Judge<Q>) {
    let pairs = [
        (0xFFFF, 0),
        (0xFFFF, 1),
        (0, 0xFFFF),
        (1, 0xFFFF),
        (0x8000, 0x8000),
        (0xFFFF, 0xFFFF),
    ];
    for (offset, length) in pairs {
        let name = format!("{offset:X}h and {length:X}h at shift 15");
        refused(judge, &name, &one(15, offset, length));
        refused(
            judge,
            &format!("{name}, 100,000 bytes"),
            &one(15, offset, length).length(100_000),
        );
    }
}

/// Data may lie over the headers, the table and other data.
fn overlaps<Q: ResourceEdges>(judge: &mut Judge<Q>) {
    judge.gives("over the headers", &one(0, 0, 128), 1, fields(0, 128));
    judge.gives("over the table", &one(0, 128, 24), 1, fields(128, 24));
    judge.gives("over all", &one(0, 0, 152), 1, fields(0, 152));
    let same = [[130, 9, 1, 0x8003], [130, 9, 0x0C30, 0x8002]];
    let image = module(&table(0, &[block(0x8001, &same)]));
    judge.gives("over other data", &image, 2, fields(130, 9));
}
