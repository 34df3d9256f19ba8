//! Equal places at 24h and 26h: no resources, wherever they point.

use super::{fields, module, one, table, Judge, Minimal, ResourceEdges};

pub fn edges<Q: ResourceEdges>(judge: &mut Judge<Q>) {
    equal_places(judge);
    at_a_sound_table(judge);
    nearly_equal(judge);
}

/// Inside, at the image's end, and far outside; never 18.
fn equal_places<Q: ResourceEdges>(judge: &mut Judge<Q>) {
    for place in [0, 1, 63, 64, 65, 0x7FFF, 0x8000, 0xFFBF, 0xFFC0, 0xFFFF] {
        let both = Minimal::new().ne_word(0x24, place).ne_word(0x26, place);
        judge.refuses_all(&format!("both {place:X}h"), &both, Q::NOT_THERE);
        let long = both.length(70_000);
        judge.refuses_all(&format!("both {place:X}h, long"), &long, Q::NOT_THERE);
    }
}

/// What stands there isn't read, be it sound or not.
fn at_a_sound_table<Q: ResourceEdges>(judge: &mut Judge<Q>) {
    let sound = one(0, 0, 4);
    judge.gives("different places", &sound, 1, fields(0, 4));
    let same = sound.ne_word(0x26, 64);
    judge.refuses_all("a sound table at both", &same, Q::NOT_THERE);
    let unsound = module(&table(16, &[])).ne_word(0x26, 64);
    judge.refuses_all("shift 16 at both", &unsound, Q::NOT_THERE);
    let cut = module(&[0]).ne_word(0x26, 64);
    judge.refuses_all("half a shift at both", &cut, Q::NOT_THERE);
}

/// Places that differ in one bit only.
fn nearly_equal<Q: ResourceEdges>(judge: &mut Judge<Q>) {
    for bit in 0..16 {
        let image = one(0, 0, 4).ne_word(0x26, 64 ^ (1 << bit));
        let name = format!("different in bit {bit}");
        judge.gives(&name, &image, 1, fields(0, 4));
    }
    // The resident names need not be there.
    let outside = one(0, 0, 4).ne_word(0x26, 0xFFFF);
    judge.gives("resident names outside", &outside, 1, fields(0, 4));
    // The low bytes are equal, then the high ones.
    let image = one(0, 0, 4).length(600);
    judge.gives(
        "0040h and 0140h",
        &image.clone().ne_word(0x26, 0x0140),
        1,
        fields(0, 4),
    );
    judge.gives(
        "0040h and 0041h",
        &image.ne_word(0x26, 0x0041),
        1,
        fields(0, 4),
    );
}
