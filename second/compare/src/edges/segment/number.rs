//! Refusal 8: the number asked for.

use super::{module, plain, Judge, Minimal, GREAT, PLAIN};

pub fn edges(judge: &mut Judge) {
    of_three(judge);
    of_one(judge);
    of_none(judge);
    of_the_most(judge);
}

fn of_three(judge: &mut Judge) {
    let three = module(&[[0, 0, 1, 11], [0, 0, 2, 12], [0, 0, 4, 13]]);
    judge.refuses("0 of 3", &three, 0, 8);
    judge.accepts("1 of 3", &three, 1, [0, 0, 1, 11, 0]);
    judge.accepts("2 of 3", &three, 2, [0, 0, 2, 12, 0]);
    judge.accepts("3 of 3", &three, 3, [0, 0, 4, 13, 0]);
    judge.refuses("4 of 3", &three, 4, 8);
    // Behind the table stands what would be a fourth record.
    let fourth = three.length(160).record(152, [0, 0, 0, 1]);
    judge.refuses("4 of 3 with bytes behind the table", &fourth, 4, 8);
    for number in GREAT {
        judge.refuses(&format!("{number} of 3"), &fourth, number, 8);
    }
}

fn of_one(judge: &mut Judge) {
    judge.refuses("0 of 1", &plain(), 0, 8);
    judge.accepts("1 of 1", &plain(), 1, PLAIN);
    judge.refuses("2 of 1", &plain(), 2, 8);
    for number in GREAT {
        judge.refuses(&format!("{number} of 1"), &plain(), number, 8);
    }
}

fn of_none(judge: &mut Judge) {
    let none = Minimal::new();
    judge.refuses("0 of 0", &none, 0, 8);
    judge.refuses("1 of 0", &none, 1, 8);
    for number in GREAT {
        judge.refuses(&format!("{number} of 0"), &none, number, 8);
    }
    let behind = plain().ne_word(0x1C, 0);
    judge.refuses("1 of 0 with a record in place", &behind, 1, 8);
}

fn of_the_most(judge: &mut Judge) {
    let mut records = vec![[0, 0, 0, 1]; 65_535];
    records[255][3] = 2;
    records[65_534][3] = 3;
    let most = module(&records);
    judge.accepts("256 of 65,535", &most, 256, [0, 0, 0, 2, 0]);
    judge.accepts("65,534 of 65,535", &most, 65_534, [0, 0, 0, 1, 0]);
    judge.accepts("65,535 of 65,535", &most, 65_535, [0, 0, 0, 3, 0]);
    judge.refuses("65,536 of 65,535", &most, 65_536, 8);
    judge.refuses("65,537 of 65,535", &most, 65_537, 8);
    judge.refuses("0 of 65,535", &most, 0, 8);
    judge.refuses("FFFFFFFFh of 65,535", &most, 0xFFFF_FFFF, 8);
}
