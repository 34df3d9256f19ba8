//! Refusal 16: the resident list ends inside the image.

use super::{list, resident, string, Judge, Minimal, NameEdges};

pub fn edges<Q: NameEdges>(judge: &mut Judge<Q>) {
    every_cut(judge);
    last_string(judge);
    one_string(judge);
    place_outside(judge);
    nothing_behind(judge);
}

/// The list is 11 bytes long and ends the image; then it is cut to each length.
fn every_cut<Q: NameEdges>(judge: &mut Judge<Q>) {
    let image = resident(&list(&[b"M", b"ABC"]));
    judge.holds(
        "the end byte ends the image",
        &image,
        b"ABC",
        [2, 133, 3, 2],
    );
    let missing = [
        "the end byte",
        "the ordinal's high byte",
        "the ordinal word",
        "the text's last byte",
        "two bytes of the text",
        "the text",
        "the second length byte",
        "the first ordinal's high byte",
        "the first ordinal word",
        "the first text",
        "all of the list",
    ];
    for (less, what) in (1..).zip(missing) {
        let short = image.clone().length(139 - less);
        judge.refuses_all(&format!("{what} is missing"), &short, 16);
    }
}

/// The last string is of each length; one byte after the other is cut.
fn last_string<Q: NameEdges>(judge: &mut Judge<Q>) {
    for length in [1, 2, 127, 128, 254, 255] {
        let text = vec![b'x'; length];
        let whole = resident(&list(&[b"M", &text]));
        let end = whole.bytes().len();
        let name = format!("a last string of {length}");
        let fields = [2, 133, length as u32, 2];
        judge.holds(&name, &whole, &text, fields);
        judge.holds(
            &format!("{name}, a byte behind"),
            &whole.clone().length(end + 1),
            &text,
            fields,
        );
        for less in 1..=4 {
            let short = whole.clone().length(end - less);
            judge.refuses_all(&format!("{name}, {less} less"), &short, 16);
        }
    }
}

/// The first string isn't excepted from the check.
fn one_string<Q: NameEdges>(judge: &mut Judge<Q>) {
    let whole = resident(&list(&[b"MODULE"]));
    judge.refuses(
        "a first string alone",
        &whole,
        Q::others()[0].clone(),
        Q::NOT_THERE,
    );
    for less in 1..=10 {
        let short = whole.clone().length(138 - less);
        judge.refuses_all(&format!("a first string, {less} less"), &short, 16);
    }
}

/// The list has no size, so that its place is always looked at.
fn place_outside<Q: NameEdges>(judge: &mut Judge<Q>) {
    let at = |place, length| Minimal::new().ne_word(0x26, place).length(length);
    judge.refuses(
        "an end byte at the end",
        &at(64, 129),
        Q::asked(),
        Q::NOT_THERE,
    );
    for place in [64, 65, 66, 0x8000, 0xFFBF, 0xFFC0, 0xFFC1, 0xFFFF] {
        judge.refuses_all(
            &format!("place {place:X}h in 128 bytes"),
            &at(place, 128),
            16,
        );
    }
    // 64 + FFFFh is 65,599; in 16 bits it would be 63.
    judge.refuses(
        "an end byte at 65,599",
        &at(0xFFFF, 65_600),
        Q::asked(),
        Q::NOT_THERE,
    );
    judge.refuses_all("place 65,599 at the end", &at(0xFFFF, 65_599), 16);
    judge.refuses_all("place 65,599 past the end", &at(0xFFFF, 65_598), 16);
}

/// Strings of 255 bytes whose end is far outside.
fn nothing_behind<Q: NameEdges>(judge: &mut Judge<Q>) {
    judge.refuses_all("a length byte alone", &resident(&[255]), 16);
    judge.refuses_all("FFh and 16 more", &resident(&[0xFF; 17]), 16);
    let first = string(&[b'M'; 255], 0);
    judge.refuses_all("a first string of 255", &resident(&first), 16);
    let two = [&first[..], &[1]].concat();
    judge.refuses_all("the same and a length byte", &resident(&two), 16);
}
