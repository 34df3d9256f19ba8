//! Decimal ordinals and segments, and the hex digits of offsets and flags.

use super::{ended, fixed, module, movable, nulls, Judge};

pub fn edges(judge: &mut Judge) {
    ordinals(judge);
    segments(judge);
    offsets(judge);
    flags(judge);
}

/// About each power of ten; no zeros stand before a number.
fn ordinals(judge: &mut Judge) {
    let near = [9, 10, 11, 99, 100, 101, 999, 1_000, 1_001, 1_010];
    let far = [9_999, 10_000, 10_001, 20_300, 65_534, 65_535];
    for ordinal in [1, 2].into_iter().chain(near).chain(far) {
        let table = ended(&[&nulls(ordinal - 1), &fixed(1, 1)]);
        let text = format!("ordinals {ordinal}\n{ordinal} 1:3322 11\nend\n");
        judge.lists(&format!("ordinal {ordinal}"), &module(1, &table), &text);
    }
}

fn segments(judge: &mut Judge) {
    for segment in [1, 9, 10, 11, 99, 100, 101, 199, 200, 254] {
        let image = module(255, &ended(&[&fixed(segment, 1)]));
        let text = format!("ordinals 1\n1 {segment}:3322 11\nend\n");
        judge.lists(&format!("fixed in {segment}"), &image, &text);
    }
    let image = module(255, &ended(&[&movable(255, 1)]));
    judge.lists("movable in 255", &image, "ordinals 1\n1 255:6655 44\nend\n");
}

const DIGITS: [&str; 16] = [
    "0", "1", "2", "3", "4", "5", "6", "7", "8", "9", "A", "B", "C", "D", "E", "F",
];

/// Each digit in each of the four places; zeros stand before it and behind.
fn offsets(judge: &mut Judge) {
    for (digit, value) in DIGITS.iter().zip(0u8..) {
        let high = value << 4;
        let entries = [0, 0, high, 0, 0, value, 0, high, 0, 0, value, 0];
        let image = module(1, &ended(&[&[4, 1], &entries]));
        let lines = [
            format!("1 1:{digit}000 00\n"),
            format!("2 1:0{digit}00 00\n"),
            format!("3 1:00{digit}0 00\n"),
            format!("4 1:000{digit} 00\n"),
        ];
        let text = format!("ordinals 4\n{}end\n", lines.concat());
        judge.lists(&format!("offset digit {digit}"), &image, &text);
    }
}

/// All flags; they are the offsets' low bytes too.
fn flags(judge: &mut Judge) {
    for (first, high) in DIGITS.iter().zip(0u8..) {
        let mut bundle = vec![16, 1];
        let mut text = "ordinals 16\n".to_string();
        for (second, low) in DIGITS.iter().zip(0u8..) {
            bundle.extend([high << 4 | low, high << 4 | low, 0]);
            let ordinal = low + 1;
            text += &format!("{ordinal} 1:00{first}{second} {first}{second}\n");
        }
        let image = module(1, &ended(&[&bundle]));
        judge.lists(&format!("flags {first}0h"), &image, &(text + "end\n"));
    }
}
