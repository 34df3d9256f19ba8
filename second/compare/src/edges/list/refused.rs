//! What the entry table is refused for is one line.

use super::{ended, fixed, module, movable, nulls, Judge, Minimal};

pub fn edges(judge: &mut Judge) {
    for (name, image, refusal) in refusals() {
        judge.refuses_all(name, &image, refusal);
        judge.lists(name, &image, &format!("refused {refusal}\n"));
    }
    place(judge);
    ends(judge);
}

/// Nothing of the lines before the fault is written.
fn refusals() -> Vec<(&'static str, Minimal, u32)> {
    let sound = fixed(1, 200);
    let with = |bytes: &[u8]| module(1, &[&sound, bytes].concat());
    vec![
        ("no end byte", with(&[]), 12),
        ("no segment byte", with(&[1]), 12),
        ("no entry bytes", with(&[1, 1]), 12),
        ("a movable byte short", with(&movable(1, 1)[..7]), 12),
        ("segment 2 of 1", with(&ended(&[&fixed(2, 1)])), 13),
        ("movable segment 0", with(&ended(&[&movable(0, 1)])), 13),
        ("no CDh 3Fh", with(&[1, 255, 0, 0xCD, 0x3E, 1, 0, 0, 0]), 13),
        ("65,536 ordinals", with(&ended(&[&nulls(65_336)])), 14),
        ("13 before 12", with(&fixed(2, 1)), 13),
        ("14 before 12", with(&nulls(65_336)), 14),
        (
            "7 before 12",
            with(&[]).ne_word(0x1E, 0xFFFF).ne_word(0x28, 0xFFFF),
            7,
        ),
    ]
}

/// The table's place and size: 7 where it leaves the image by one byte.
fn place(judge: &mut Judge) {
    let image = module(1, &ended(&[&fixed(1, 1)]));
    let text = "ordinals 1\n1 1:3322 11\nend\n";
    judge.lists("a table that ends the image", &image, text);
    let end = image.bytes().len();
    judge.lists(
        "the same, cut",
        &image.clone().length(end - 1),
        "refused 7\n",
    );
    let far = image.clone().ne_word(0x04, 0xFFFF);
    judge.lists("place FFFFh", &far, "refused 7\n");
    let inside = far.length(65_606).put(65_599, &ended(&[&fixed(1, 1)]));
    judge.lists("place FFFFh inside", &inside.clone().length(65_605), text);
    judge.lists("one past", &inside.length(65_604), "refused 7\n");
}

/// The byte count is the table's end, whatever stands behind it.
fn ends(judge: &mut Judge) {
    let zeros = module(1, &ended(&[&fixed(1, 2)])).length(1_000);
    let text = "ordinals 2\n1 1:3322 11\n2 1:3322 11\nend\n";
    judge.lists("zeros behind", &zeros, text);
    for bytes in 1..9 {
        let short = zeros.clone().ne_word(0x06, bytes);
        judge.lists(&format!("{bytes} of 9 bytes"), &short, "refused 12\n");
    }
}
