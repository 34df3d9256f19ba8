//! Refusal 16: a string that is empty or leaves the image.

use super::{modules, one, Judge};

pub fn edges(judge: &mut Judge) {
    empty(judge);
    lengths(judge);
    length_byte_outside(judge);
    any_text(judge);
}

fn empty(judge: &mut Judge) {
    judge.refuses("empty at the end", &one(&[0]), 1, 16);
    judge.refuses("empty before others", &one(b"\0\x03ABC"), 1, 16);
    judge.refuses("empty before zeros", &one(&[0; 300]), 1, 16);
    let between = modules(&[4], b"\x03ABC\0\x03DEF");
    judge.refuses("empty between others", &between, 1, 16);
}

/// Each length with the text up to the image's end, with one byte less, and
/// with none.
fn lengths(judge: &mut Judge) {
    for length in 1..=255 {
        let mut bytes = vec![b'T'; usize::from(length) + 1];
        bytes[0] = length;
        let image = one(&bytes);
        let end = image.bytes().len();
        let fields = [131, u32::from(length)];
        let name = format!("{length} bytes");
        judge.accepts(&format!("{name} end the image"), &image, 1, fields);
        let longer = image.clone().length(end + 1);
        judge.accepts(&format!("{name}, one behind"), &longer, 1, fields);
        judge.refuses(
            &format!("{name}, one past"),
            &image.clone().length(end - 1),
            1,
            16,
        );
        judge.refuses(&format!("{name}, no text"), &image.length(131), 1, 16);
    }
}

/// The imported names have no size: their place is always looked at.
fn length_byte_outside(judge: &mut Judge) {
    let image = modules(&[3], b"ABC\x01D");
    judge.accepts("at place 3", &image, 1, [134, 1]);
    judge.refuses("text past the end", &image.clone().length(134), 1, 16);
    judge.refuses("length byte at the end", &image.clone().length(133), 1, 16);
    judge.refuses(
        "length byte past the end",
        &image.clone().length(132),
        1,
        16,
    );
    judge.refuses(
        "imported names at the end",
        &image.clone().length(130),
        1,
        16,
    );
    for place in [70, 71, 72, 0x8000, 0xFFFF] {
        let outside = image.clone().ne_word(0x2A, place);
        judge.refuses(&format!("imported names at {place:X}h"), &outside, 1, 16);
    }
    for reference in [5, 6, 7, 0x7FFF, 0x8000, 0xFFBE, 0xFFFF] {
        let name = format!("reference {reference:X}h");
        judge.refuses(&name, &modules(&[reference], b"ABC\x01D"), 1, 16);
    }
    // 130 + FFBEh is 65,600; in 16 bits it would be the "NE" at 64.
    let around = modules(&[0xFFBE], b"").length(300);
    judge.refuses("reference FFBEh in 300 bytes", &around, 1, 16);
}

/// No byte of the text means anything.
fn any_text(judge: &mut Judge) {
    for byte in 0..=255 {
        let name = format!("a text of {byte:02X}h");
        judge.accepts(&name, &one(&[2, byte, byte]), 1, [131, 2]);
    }
}
