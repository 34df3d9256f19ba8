//! Where the lists stand: past 16 and 24 bits, over each other, and counted
//! from the right place.

use super::{both, list, resident, Judge, Minimal, NameEdges, SHORT};

pub fn edges<Q: NameEdges>(judge: &mut Judge<Q>) {
    past_16_bits(judge);
    past_24_bits(judge);
    counted_from(judge);
    overlaps(judge);
}

/// 64 + FFFFh is 65,599.
fn past_16_bits<Q: NameEdges>(judge: &mut Judge<Q>) {
    let far = Minimal::new().length(65_608).ne_word(0x26, 0xFFFF);
    let far = far.put(65_599, &SHORT);
    judge.holds("resident at 65,599", &far, b"A", [2, 65_604, 1, 0x1234]);
    judge.refuses_all("the same, one past", &far.length(65_607), 16);
    for at in [0xFFFF, 0x1_0000, 0x1_0001, 0x12_3456] {
        let image = resident(&[0]).length(at + 9).put(at, &SHORT);
        let image = image.ne_word(0x20, 9).ne_dword(0x2C, at as u32);
        let name = format!("nonresident at {at:X}h");
        judge.holds(&name, &image, b"A", [2, at as u32 + 5, 1, 0x1234]);
        let short = image.ne_word(0x20, 8);
        judge.refuses_all(&format!("{name}, size 8"), &short, 16);
    }
}

/// The list ends an image of 16,777,216 bytes.
fn past_24_bits<Q: NameEdges>(judge: &mut Judge<Q>) {
    const END: usize = 16_777_216;
    let last = Q::in_header(END - 64 - 1).length(END);
    let fields = [2, 16_777_208, 1, 0x1234];
    judge.holds("resident, a byte before the end", &last, b"A", fields);
    let at_the_end = Minimal::with_header_at(END - 64)
        .ne_word(0x26, 0x37)
        .put(END - 9, &SHORT);
    let fields = [2, 16_777_212, 1, 0x1234];
    judge.holds("resident, at the end", &at_the_end, b"A", fields);
    let unended = at_the_end.put(END - 1, &[1]);
    judge.refuses_all("resident, not ended there", &unended, 16);
    let nonresident = resident(&[0])
        .length(END)
        .put(END - 9, &SHORT)
        .ne_word(0x20, 9)
        .ne_dword(0x2C, (END - 9) as u32);
    judge.holds("nonresident, at the end", &nonresident, b"A", fields);
    let past = nonresident.ne_word(0x20, 10);
    judge.refuses_all("nonresident, one past", &past, 7);
}

/// The resident place counts from the NE header, the other from the file's
/// start.
fn counted_from<Q: NameEdges>(judge: &mut Judge<Q>) {
    let further = Minimal::with_header_at(200).length(300);
    let image = further
        .put(264, &list(&[b"M", b"A"]))
        .ne_word(0x26, 64)
        .put(280, &list(&[b"D", b"BB"]))
        .ne_word(0x20, 10)
        .ne_dword(0x2C, 280);
    judge.holds("resident from 200 on", &image, b"A", [2, 269, 1, 2]);
    judge.holds("nonresident from 0 on", &image, b"BB", [4, 285, 2, 2]);
    // At 64 and at 480 there would be other lists.
    let others = image
        .length(500)
        .put(64, &list(&[b"X", b"YY"]))
        .put(480, &list(&[b"X", b"YY"]));
    judge.holds("A with others about", &others, b"A", [2, 269, 1, 2]);
    judge.holds("BB with others about", &others, b"BB", [4, 285, 2, 2]);
    judge.lacks("YY of the others", &others, 5, b"YY");
}

/// Lists may lie over each other, over the headers and over other tables.
fn overlaps<Q: NameEdges>(judge: &mut Judge<Q>) {
    let shared = Q::plain().ne_word(0x20, 9).ne_dword(0x2C, 128);
    judge.accepts_plain("one list for both", &shared);
    judge.lacks("nothing behind one list for both", &shared, 5, b"B");
    // The second list starts at the first one's second string.
    let tail = both(&list(&[b"M", b"A", b"B"]), &[]);
    let tail = tail.ne_word(0x20, 9).ne_dword(0x2C, 132);
    judge.holds("A of a list and its tail", &tail, b"A", [2, 133, 1, 2]);
    judge.holds("B of a list and its tail", &tail, b"B", [3, 137, 1, 3]);
    judge.lacks("nothing behind the tail", &tail, 6, b"C");
    // "MZ" starts a string of 77 bytes, whose ordinal word is the NE header's
    // at 0Eh. The next one stands at 10h there, up to 18h.
    let header = Q::plain()
        .put_word(78, 0x5678)
        .put(80, b"\x04NAME\xBC\x9A\x00")
        .ne_dword(0x2C, 0)
        .ne_word(0x20, 88);
    judge.holds("over both headers", &header, b"NAME", [4, 81, 4, 0x9ABC]);
    let short = header.ne_word(0x20, 87);
    judge.refuses_all("over both headers, one less", &short, 16);
}
