//! What the module query doesn't look at.

use super::{modules, Judge};

pub fn edges(judge: &mut Judge) {
    other_strings(judge);
    name_lists(judge);
}

/// Only the string of the module asked for is checked.
fn other_strings(judge: &mut Judge) {
    for (name, reference) in [("empty", 0), ("outside", 0xFFFF), ("cut", 3)] {
        let imported = b"\0\x01A\x09";
        let first = modules(&[reference, 1], imported);
        judge.accepts(&format!("2, while 1 is {name}"), &first, 2, [134, 1]);
        judge.refuses(&format!("1 is {name}"), &first, 1, 16);
        let second = modules(&[1, reference], imported);
        judge.accepts(&format!("1, while 2 is {name}"), &second, 1, [134, 1]);
        judge.refuses(&format!("2 is {name}"), &second, 2, 16);
    }
    // Bytes before the string that no chain of strings leads through.
    let inside = modules(&[3], b"\xFF\xFF\xFF\x02AB");
    judge.accepts("behind what is no string", &inside, 1, [134, 2]);
}

/// Neither list needs to be sound, or inside.
fn name_lists(judge: &mut Judge) {
    let image = modules(&[0], b"\x01A").length(140);
    let names = image.put(132, &[0xFF; 8]).ne_word(0x26, 68);
    judge.accepts("an unsound resident list", &names, 1, [131, 1]);
    let both = names.ne_word(0x20, 8).ne_dword(0x2C, 132);
    judge.accepts("two unsound lists", &both, 1, [131, 1]);
    let outside = both.ne_word(0x26, 0xFFFF).ne_word(0x24, 0xFFFF);
    judge.accepts("lists and resources outside", &outside, 1, [131, 1]);
}
