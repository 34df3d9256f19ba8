//! Refusal 13: an entry's segment isn't in the table, or there is no CDh 3Fh.

use super::{ended, fixed, in_fixed, in_movable, module, movable, nulls, Judge, Minimal};

pub fn edges(judge: &mut Judge) {
    fixed_segments(judge);
    movable_segments(judge);
    interrupt(judge);
    later_entries(judge);
    later_bundles(judge);
}

/// So many segments, and one fixed entry in this one.
fn one_fixed(segments: u16, segment: u8) -> Minimal {
    module(segments, &ended(&[&fixed(segment, 1)]))
}

/// The same with a movable entry.
fn one_movable(segments: u16, segment: u8) -> Minimal {
    module(segments, &ended(&[&movable(segment, 1)]))
}

/// 1 to 254 can be said.
fn fixed_segments(judge: &mut Judge) {
    for count in [1, 2, 3, 127, 128, 252, 253] {
        let name = format!("fixed {count} of {count}");
        let image = one_fixed(u16::from(count), count);
        judge.accepts(&name, &image, 1, in_fixed(u32::from(count)));
        let name = format!("fixed {} of {count}", count + 1);
        judge.refuses_all(&name, &one_fixed(u16::from(count), count + 1), 13);
    }
    // The low byte of the last three counts is under the number.
    for segments in [254, 255, 256, 257, 509] {
        let name = format!("fixed 254 of {segments}");
        judge.accepts(&name, &one_fixed(segments, 254), 1, in_fixed(254));
    }
    judge.accepts("fixed 1 of 256", &one_fixed(256, 1), 1, in_fixed(1));
    judge.refuses("fixed 1 of 0", &one_fixed(0, 1), 1, 13);
    judge.refuses("fixed 254 of 0", &one_fixed(0, 254), 1, 13);
    judge.refuses("fixed 254 of 1", &one_fixed(1, 254), 1, 13);
}

/// 1 to 255 can be said, and 0, which no table has.
fn movable_segments(judge: &mut Judge) {
    for count in [1, 2, 3, 127, 128, 253, 254] {
        let name = format!("movable {count} of {count}");
        let image = one_movable(u16::from(count), count);
        judge.accepts(&name, &image, 1, in_movable(u32::from(count)));
        let name = format!("movable {} of {count}", count + 1);
        judge.refuses_all(&name, &one_movable(u16::from(count), count + 1), 13);
    }
    for segments in [255, 256, 257, 510] {
        let name = format!("movable 255 of {segments}");
        judge.accepts(&name, &one_movable(segments, 255), 1, in_movable(255));
    }
    for segments in [0, 1, 254, 255, 256, 510] {
        let name = format!("movable 0 of {segments}");
        judge.refuses_all(&name, &one_movable(segments, 0), 13);
    }
    judge.refuses("movable 1 of 0", &one_movable(0, 1), 1, 13);
    judge.refuses("movable 255 of 1", &one_movable(1, 255), 1, 13);
}

fn interrupt(judge: &mut Judge) {
    let with = |bytes: [u8; 2]| module(1, &[1, 255, 7, bytes[0], bytes[1], 1, 9, 0, 0]);
    judge.accepts("CDh 3Fh", &with([0xCD, 0x3F]), 1, [1, 9, 7]);
    for first in [0x00, 0x4D, 0xC0, 0xCC, 0xCE, 0x3F, 0xFF] {
        let name = format!("{first:02X}h 3Fh");
        judge.refuses(&name, &with([first, 0x3F]), 1, 13);
    }
    for second in [0x00, 0x30, 0x3E, 0x40, 0xBF, 0xCD, 0xFF] {
        let name = format!("CDh {second:02X}h");
        judge.refuses(&name, &with([0xCD, second]), 1, 13);
    }
    judge.refuses("3Fh CDh", &with([0x3F, 0xCD]), 1, 13);
    judge.refuses("00h 00h", &with([0, 0]), 1, 13);
    // One of the two is right, and the segment isn't.
    let both = module(1, &[1, 255, 7, 0xCD, 0x3E, 0, 9, 0, 0]);
    judge.refuses("CDh 3Eh, segment 0", &both, 1, 13);
}

/// Only one entry of a movable bundle is wrong; all ordinals are refused.
fn later_entries(judge: &mut Judge) {
    for (count, wrong) in [(2, 0), (2, 1), (3, 1), (3, 2), (255, 0), (255, 254)] {
        // Where the entry's bytes differ from those of the others.
        let spoiled = [(1, 0xCC), (2, 0x3E), (3, 0), (3, 2)];
        for (byte, value) in spoiled {
            let mut table = ended(&[&movable(1, count)]);
            table[2 + 6 * wrong + byte] = value;
            let name = format!("byte {byte} of entry {wrong} of {count} is {value}");
            let image = module(1, &table);
            judge.refuses(&name, &image, 1, 13);
            judge.refuses(&name, &image, wrong as u32 + 1, 13);
            judge.refuses(&name, &image, u32::from(count), 13);
        }
    }
}

/// The bundles before and behind are sound.
fn later_bundles(judge: &mut Judge) {
    for bad in [fixed(3, 1), movable(3, 1), movable(0, 1), fixed(254, 9)] {
        let table = ended(&[&fixed(1, 2), &nulls(300), &bad, &movable(2, 1)]);
        let image = module(2, &table);
        let name = format!("{:?} behind sound bundles", &bad[..2]);
        judge.refuses_all(&name, &image, 13);
    }
}
