//! Strings past 16 and 24 bits, and over other things.

use super::{modules, one, Judge, Minimal};

pub fn edges(judge: &mut Judge) {
    past_16_bits(judge);
    past_24_bits(judge);
    counted_from(judge);
    overlaps(judge);
}

/// The place counts from the imported names, and these from the NE header.
fn past_16_bits(judge: &mut Judge) {
    let at = |imported: u16, reference: u16| {
        let place = 64 + usize::from(imported) + usize::from(reference);
        let image = modules(&[reference], b"").length(place + 3);
        image.ne_word(0x2A, imported).put(place, b"\x02AB")
    };
    let places = [
        (0xFFBF, 0, 65_536),
        (0xFFC0, 0, 65_537),
        (0xFFFF, 0, 65_600),
        (64, 0xFFFF, 65_664),
        (0x8000, 0x8000, 65_601),
        (0xFFFF, 1, 65_601),
        (0xFFFF, 0xFFFF, 131_135),
    ];
    for (imported, reference, text) in places {
        let image = at(imported, reference);
        let name = format!("{reference:X}h from {imported:X}h");
        judge.accepts(&name, &image, 1, [text, 2]);
        let end = image.bytes().len();
        for less in 1..=3 {
            let short = image.clone().length(end - less);
            judge.refuses(&format!("{name}, {less} less"), &short, 1, 16);
        }
    }
}

/// The string ends an image of 16,777,216 bytes.
fn past_24_bits(judge: &mut Judge) {
    const END: usize = 16_777_216;
    let image = |length: u8| {
        Minimal::with_header_at(END - 200)
            .length(END)
            .ne_word(0x1E, 1)
            .ne_word(0x28, 64)
            .ne_word(0x2A, 100)
            .put_word(END - 136, 50)
            .put(END - 50, &[length])
    };
    judge.accepts("49 bytes end 16 MB", &image(49), 1, [16_777_167, 49]);
    judge.refuses("50 bytes, one past 16 MB", &image(50), 1, 16);
    let last = image(49).put_word(END - 136, 98).put(END - 2, &[1, b'Z']);
    judge.accepts("1 byte ends 16 MB", &last, 1, [16_777_215, 1]);
    let past = last.put(END - 2, &[2]);
    judge.refuses("2 bytes, one past 16 MB", &past, 1, 16);
    for reference in [99, 100, 101, 0xFFFF] {
        let outside = image(49).put_word(END - 136, reference);
        judge.refuses(&format!("reference {reference} in 16 MB"), &outside, 1, 16);
    }
}

/// At the places counted from elsewhere there are other strings.
fn counted_from(judge: &mut Judge) {
    let image = Minimal::with_header_at(200)
        .length(600)
        .ne_word(0x1E, 1)
        .ne_word(0x28, 64)
        .ne_word(0x2A, 80)
        .put_word(264, 20)
        .put(20, b"\x01A")
        .put(80, b"\x02BB")
        .put(100, b"\x03CCC")
        .put(220, b"\x04DDDD")
        .put(280, b"\x05EEEEE")
        .put(300, b"\x06FFFFFF")
        .put(320, b"\x07GGGGGGG");
    judge.accepts("20 from 80 from 200", &image, 1, [301, 6]);
}

/// A string may be any bytes of the image.
fn overlaps(judge: &mut Judge) {
    // "N" is 78, and the image goes on for 79 bytes from there.
    let header = one(b"").length(143).ne_word(0x2A, 0);
    judge.accepts("the NE header as a string", &header, 1, [65, 78]);
    judge.refuses("the same, one past", &header.length(142), 1, 16);
    // The string's length byte is the reference's own low byte.
    let own = modules(&[2], b"").length(131).ne_word(0x2A, 62);
    judge.accepts("the reference as a string", &own, 1, [129, 2]);
    let inner = modules(&[2], b"\x05A\x02BCD");
    judge.accepts("a string in a string", &inner, 1, [133, 2]);
}
