//! Refusal 7: the module references' place and count.

use super::{modules, Judge, Minimal, ModuleQuery};
use crate::edges::header::HeaderEdges;

pub fn edges(judge: &mut Judge) {
    ends(judge);
    great_places(judge);
    size_0(judge);
    overlaps(judge);
}

/// A string at 128, and from 132 on so many references to it.
fn behind(count: u16) -> Minimal {
    let end = 132 + 2 * usize::from(count);
    let image = Minimal::new().length(end).put(128, b"\x03ABC");
    image
        .ne_word(0x2A, 64)
        .ne_word(0x1E, count)
        .ne_word(0x28, 68)
}

/// What each of these references gives.
const STRING: [u32; 2] = [129, 3];

fn ends(judge: &mut Judge) {
    judge.accepts("1 reference ends the image", &behind(1), 1, STRING);
    judge.refuses_all("1 reference, one past", &behind(1).length(133), 7);
    judge.refuses_all("1 reference, two past", &behind(1).length(132), 7);
    judge.accepts("2 references end it, 1", &behind(2), 1, STRING);
    judge.accepts("2 references end it, 2", &behind(2), 2, STRING);
    judge.refuses_all("2 references, one past", &behind(2).length(135), 7);
    for count in [32_767, 32_768, 65_535] {
        let whole = behind(count);
        let end = whole.bytes().len();
        let name = format!("{count} references");
        judge.accepts(&name, &whole, u32::from(count), STRING);
        let short = whole.length(end - 1);
        judge.refuses_all(&format!("{name}, one past"), &short, 7);
    }
}

/// 64 + FFFFh is 65,599.
fn great_places(judge: &mut Judge) {
    let far = ModuleQuery::plain().ne_word(0x28, 0xFFFF);
    judge.refuses_all("references at 65,599 in 144 bytes", &far, 7);
    let far = far.length(65_601).put_word(65_599, 1);
    judge.accepts_plain("references at 65,599", &far);
    judge.refuses_all("the same, one past", &far.length(65_600), 7);
    let most = behind(65_535).ne_word(0x28, 0xFFFF);
    let whole = most.clone().length(196_669);
    judge.accepts("65,535 at 65,599", &whole, 65_535, STRING);
    judge.refuses_all("the same, one past", &most.length(196_668), 7);
}

/// A table of size 0 is empty and its place isn't looked at.
fn size_0(judge: &mut Judge) {
    for place in [0, 64, 80, 0xFFFF] {
        let none = ModuleQuery::plain().ne_word(0x1E, 0).ne_word(0x28, place);
        judge.refuses_all(&format!("none at {place:X}h"), &none, 8);
    }
}

/// The references may be the string's own bytes, or the header's.
fn overlaps(judge: &mut Judge) {
    // 0003h is the first reference and the string's length and first byte.
    let image = modules(&[3], b"").length(140).ne_word(0x2A, 61);
    judge.accepts("a reference that is a string", &image, 1, [129, 3]);
    // "NE" is the place 454Eh, which is 17,742.
    let header = Minimal::new().length(17_811).ne_word(0x1E, 1);
    let header = header.put(17_806, b"\x04NAME");
    judge.accepts("the header as a reference", &header, 1, [17_807, 4]);
    judge.refuses("the same, one past", &header.length(17_810), 1, 16);
}
