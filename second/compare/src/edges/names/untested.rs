//! What the name queries don't look at.

use super::{Judge, Minimal, NameEdges};

pub fn edges<Q: NameEdges>(judge: &mut Judge<Q>) {
    entry_table(judge);
    resources(judge);
    segments(judge);
}

/// The list with 8 bytes behind it, at 144.
fn with<Q: NameEdges>(bytes: [u8; 8]) -> Minimal {
    Q::plain().length(152).put(144, &bytes)
}

/// It isn't walked, and a name's ordinal need not be in it.
fn entry_table<Q: NameEdges>(judge: &mut Judge<Q>) {
    let tables: [(&str, [u8; 8], u16); 5] = [
        ("without an end byte", [1, 1, 0, 0, 0, 0, 0, 0], 5),
        ("without a segment byte", [1, 0, 0, 0, 0, 0, 0, 0], 1),
        ("of segment 9", [1, 9, 0, 0, 0, 0, 0, 0], 8),
        ("without CDh 3Fh", [1, 255, 0, 0, 0, 1, 0, 0], 8),
        ("of an end byte", [0; 8], 1),
    ];
    for (name, bytes, size) in tables {
        let image = with::<Q>(bytes).ne_word(0x04, 80).ne_word(0x06, size);
        judge.accepts_plain(&format!("an entry table {name}"), &image);
    }
    // 65,536 null ordinals.
    let many = [255, 0].repeat(257);
    let image = Q::plain().length(660).put(144, &many).put(658, &[1, 0]);
    let image = image.ne_word(0x04, 80).ne_word(0x06, 516);
    judge.accepts_plain("an entry table of 65,536 ordinals", &image);
}

/// Nor whether the place at 24h says that there are no resources.
fn resources<Q: NameEdges>(judge: &mut Judge<Q>) {
    let same = Q::plain().ne_word(0x24, 64);
    judge.accepts_plain("equal places at 24h and 26h", &same);
    let shift = with::<Q>([0xFF; 8]).ne_word(0x24, 80);
    judge.accepts_plain("a resource shift of FFFFh", &shift);
}

/// A segment's record is any bytes.
fn segments<Q: NameEdges>(judge: &mut Judge<Q>) {
    let image = with::<Q>([0xFF; 8]).ne_word(0x22, 80);
    judge.accepts_plain("a segment record of FFh", &image);
    let none = Q::plain().ne_word(0x1C, 0).ne_word(0x22, 0xFFFF);
    judge.accepts_plain("no segments", &none);
}
