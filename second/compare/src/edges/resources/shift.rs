//! Refusal 18: the shift word is there and not over 15.

use super::{fields, module, one, table, Judge, Minimal, ResourceEdges};

pub fn edges<Q: ResourceEdges>(judge: &mut Judge<Q>) {
    greatest(judge);
    without_resources(judge);
    word_outside(judge);
}

fn greatest<Q: ResourceEdges>(judge: &mut Judge<Q>) {
    for shift in 0..=15 {
        // One unit of data, behind as many bytes.
        let unit = 1 << shift;
        let image = one(shift, 1, 1).length(70_000);
        judge.gives(&format!("shift {shift}"), &image, 1, fields(unit, unit));
    }
    for shift in [
        16, 17, 31, 32, 0x0100, 0x0F00, 0x1000, 0x7FFF, 0x8000, 0xFFFF,
    ] {
        let image = one(shift, 0, 0).length(70_000);
        judge.refuses_all(&format!("shift {shift:X}h"), &image, 18);
    }
}

/// Looked at also where no resource is shifted by it.
fn without_resources<Q: ResourceEdges>(judge: &mut Judge<Q>) {
    let empty = |shift| module(&table(shift, &[]));
    judge.refuses_all("no resources, shift 0", &empty(0), Q::NOT_THERE);
    judge.refuses_all("no resources, shift 15", &empty(15), Q::NOT_THERE);
    judge.refuses_all("no resources, shift 16", &empty(16), 18);
    judge.refuses_all("no resources, shift FFFFh", &empty(0xFFFF), 18);
    // The segments' alignment shift plays no part.
    let aligned = one(1, 3, 2).ne_word(0x32, 9);
    judge.gives("alignment shift 9", &aligned, 1, fields(6, 4));
}

/// The table has no size, so that its place is always looked at.
fn word_outside<Q: ResourceEdges>(judge: &mut Judge<Q>) {
    let at = |place, length| Minimal::new().ne_word(0x24, place).length(length);
    judge.refuses_all("an empty table at the end", &at(64, 132), Q::NOT_THERE);
    judge.refuses_all("the shift half inside", &at(64, 129), 18);
    judge.refuses_all("the shift at the end", &at(64, 128), 18);
    for place in [65, 66, 0x8000, 0xFFBF, 0xFFC0, 0xFFC1, 0xFFFF] {
        let name = format!("place {place:X}h in 128 bytes");
        judge.refuses_all(&name, &at(place, 128), 18);
    }
    // 64 + FFFFh is 65,599; in 16 bits it would be 63.
    judge.refuses_all(
        "an empty table at 65,599",
        &at(0xFFFF, 65_603),
        Q::NOT_THERE,
    );
    judge.refuses_all("its end half inside", &at(0xFFFF, 65_602), 18);
    judge.refuses_all("its shift alone", &at(0xFFFF, 65_601), 18);
    judge.refuses_all("half of its shift", &at(0xFFFF, 65_600), 18);
    judge.refuses_all("nothing of it", &at(0xFFFF, 65_599), 18);
}
