//! Two checks that fail at once: the earlier one decides, bundle by bundle.

use super::{ended, fixed, module, movable, nulls, Judge, Minimal};

pub fn edges(judge: &mut Judge) {
    after_7(judge);
    early_13(judge);
    entry_bytes_before_13(judge);
    between_the_two_12s(judge);
    before_15(judge);
}

/// In a module of one segment; nothing is added to the bytes.
fn raw(parts: &[&[u8]]) -> Minimal {
    module(1, &parts.concat())
}

/// The header's checks come before the table is walked.
fn after_7(judge: &mut Judge) {
    let unsound = [
        (12, module(1, &[1])),
        (13, module(1, &ended(&[&movable(0, 1)]))),
        (14, module(1, &ended(&[&nulls(65_536)]))),
    ];
    for (own, image) in unsound {
        judge.refuses(&format!("{own} alone"), &image, 1, own);
        let long = image.ne_word(0x1E, 0xFFFF);
        judge.refuses_all(&format!("7 before {own}"), &long, 7);
        let shifted = long.ne_word(0x32, 16);
        judge.refuses(&format!("6 before {own}"), &shifted, 0, 6);
        let no_ne = shifted.put(64, b"NX");
        judge.refuses(&format!("5 before {own}"), &no_ne, 1, 5);
        let no_place = no_ne.put_dword(0x3C, 0xFFFF_FFC0);
        judge.refuses(&format!("4 before {own}"), &no_place, 2, 4);
        let no_mz = no_place.put(0, b"M\0");
        judge.refuses(&format!("3 before {own}"), &no_mz, 1, 3);
        judge.refuses(&format!("1 before {own}"), &no_mz.length(63), 1, 1);
    }
}

/// A 13 of one bundle comes before all that is wrong behind it.
fn early_13(judge: &mut Judge) {
    for bad in [fixed(2, 1), fixed(254, 3), movable(2, 1), movable(0, 2)] {
        let kind = format!("13 of {:?}", &bad[..2]);
        let later: [(&str, &[u8]); 5] = [
            ("no end byte", &[]),
            ("no segment byte", &[1]),
            ("no entry bytes", &[1, 1]),
            ("entry bytes one short", &[1, 255, 0, 0xCD, 0x3F, 1, 0]),
            ("null and no end byte", &[9, 0]),
        ];
        for (name, bytes) in later {
            let name = format!("{kind} before 12: {name}");
            judge.refuses(&name, &raw(&[&bad, bytes]), 1, 13);
        }
        let many = raw(&[&bad, &nulls(65_535), &[0]]);
        judge.refuses(&format!("{kind} before 14"), &many, 1, 13);
        // Here the bad bundle reaches 65,535, and the next one passes it.
        let before = nulls(65_535 - usize::from(bad[0]));
        let last = raw(&[&before, &bad, &[1, 0, 0]]);
        judge.refuses(&format!("{kind} at 65,535"), &last, 1, 13);
    }
}

/// All entry bytes of a bundle are there before its first 13.
fn entry_bytes_before_13(judge: &mut Judge) {
    let mut no_interrupt = movable(1, 2);
    no_interrupt[3] = 0;
    for bad in [fixed(2, 1), fixed(2, 2), movable(2, 2), no_interrupt] {
        let name = format!("{:?} with 13", &bad[..2]);
        judge.refuses(&format!("{name}, whole"), &raw(&[&bad]), 1, 13);
        for missing in 1..=bad.len() - 2 {
            let name = format!("{name}, {missing} bytes short");
            let short = &bad[..bad.len() - missing];
            judge.refuses(&name, &raw(&[short]), 1, 12);
        }
    }
    // The table is long enough for the wrong one of 255, not for the rest.
    let long = movable(0, 255);
    judge.refuses(
        "255 movable, the last short",
        &raw(&[&long[..1_500]]),
        1,
        12,
    );
}

/// Per bundle: 12 for the segment byte, 14, 12 for entry bytes, 13.
fn between_the_two_12s(judge: &mut Judge) {
    let full = nulls(65_535);
    judge.refuses_all("no end byte, 12", &raw(&[&full]), 12);
    judge.refuses_all("segment byte before 14", &raw(&[&full, &[1]]), 12);
    judge.refuses_all("segment byte of 255", &raw(&[&full, &[255]]), 12);
    let over: [(&str, &[u8]); 9] = [
        ("null, no end byte", &[1, 0]),
        ("no fixed bytes", &[1, 1]),
        ("a fixed byte short", &[1, 1, 0, 0]),
        ("no movable bytes", &[1, 255]),
        ("a movable byte short", &[1, 255, 0, 0xCD, 0x3F, 1, 0]),
        ("255 fixed, no bytes", &[255, 1]),
        ("a segment above the count", &[1, 2, 0, 0, 0, 0]),
        ("a movable segment 0", &[1, 255, 0, 0xCD, 0x3F, 0, 0, 0, 0]),
        ("no CDh 3Fh", &[1, 255, 0, 0, 0, 1, 0, 0, 0]),
    ];
    for (name, bytes) in over {
        let name = format!("14 before {name}");
        judge.refuses(&name, &raw(&[&full, bytes]), 1, 14);
        judge.refuses(&name, &raw(&[&full, bytes]), 0, 14);
    }
    // At 65,535 exactly the entry bytes are looked at.
    let room = nulls(65_534);
    judge.refuses("12 at 65,535", &raw(&[&room, &[1, 1, 0, 0]]), 1, 12);
    judge.refuses("13 at 65,535", &raw(&[&room, &[1, 2, 0, 0, 0, 0]]), 1, 13);
}

/// The whole table is walked before the ordinal is looked for, whether it is
/// covered by a sound bundle, null, or not covered.
fn before_15(judge: &mut Judge) {
    let sound = [fixed(1, 2), vec![2, 0], movable(1, 2)].concat();
    let unsound: [(&str, u32, Vec<u8>); 5] = [
        ("no end byte", 12, vec![]),
        ("no segment byte", 12, vec![7]),
        ("entry bytes", 12, vec![1, 1, 0, 0]),
        ("segment", 13, fixed(2, 1)),
        ("ordinals", 14, ended(&[&nulls(65_530)])),
    ];
    for (name, refusal, bytes) in unsound {
        let image = raw(&[&sound, &bytes]);
        for number in [3, 4, 5, 6, 7] {
            let name = format!("{refusal} for {name} behind, {number}");
            judge.refuses(&name, &image, number, refusal);
        }
        judge.refuses_all(&format!("{refusal} for {name} behind"), &image, refusal);
    }
}
