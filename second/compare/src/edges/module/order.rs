//! Two checks that fail at once: the earlier one decides.

use super::{modules, one, Judge};

pub fn edges(judge: &mut Judge) {
    after_7(judge);
    number_before_string(judge);
}

/// The header's checks come before the string is looked at.
fn after_7(judge: &mut Judge) {
    for (name, image) in [("empty", one(&[0])), ("outside", one(&[]))] {
        judge.refuses(&format!("16, {name}"), &image, 1, 16);
        let long = image.ne_word(0x06, 0xFFFF);
        judge.refuses_all(&format!("7 before 16, {name}"), &long, 7);
        let shifted = long.ne_word(0x32, 16);
        judge.refuses_all(&format!("6 before 16, {name}"), &shifted, 6);
    }
}

/// What isn't a reference has no string.
fn number_before_string(judge: &mut Judge) {
    let strings: [(&str, &[u8]); 3] = [("empty", &[0]), ("outside", &[]), ("cut", &[2, 65])];
    for (name, imported) in strings {
        let image = one(imported);
        judge.refuses(&format!("16, string {name}"), &image, 1, 16);
        for number in [0, 2, 65_535, 65_536, 65_537, 0xFFFF_FFFF] {
            let name = format!("8 before 16, {number}, string {name}");
            judge.refuses(&name, &image, number, 8);
        }
    }
    // The bytes behind the table would be a reference to an empty string.
    let behind = modules(&[4, 2], b"\0\0\x01A").ne_word(0x1E, 1);
    judge.refuses("8 for an empty string behind", &behind, 2, 8);
}
