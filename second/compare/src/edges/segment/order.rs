//! Two checks that fail at once: the earlier one decides.

use super::{module, plain, Judge};

pub fn edges(judge: &mut Judge) {
    after_7(judge);
    segment(judge);
    records(judge);
}

fn after_7(judge: &mut Judge) {
    let long = || plain().ne_word(0x06, 81);
    let iterated = long().record(128, [136, 8, 8, 8]);
    judge.refuses("7 before 10", &iterated, 1, 7);
    let under = long().record(128, [136, 8, 0, 7]);
    judge.refuses("7 before 11", &under, 1, 7);
    let outside = long().record(128, [137, 8, 0, 8]);
    judge.refuses("7 before 9", &outside, 1, 7);
}

/// The record behind the table would be refused otherwise.
fn segment(judge: &mut Judge) {
    let behind = |words| module(&[[0, 0, 0, 1]]).length(144).record(136, words);
    judge.refuses("8 before 10", &behind([136, 8, 8, 8]), 2, 8);
    judge.refuses("8 before 11", &behind([136, 8, 0, 7]), 2, 8);
    judge.refuses("8 before 9", &behind([137, 8, 0, 8]), 2, 8);
    let of = |words| plain().record(128, words);
    judge.refuses("8 before 10, number 0", &of([136, 8, 8, 8]), 0, 8);
    judge.refuses("10 before 11", &of([136, 8, 8, 7]), 1, 10);
    judge.refuses("10 before 9", &of([137, 8, 8, 8]), 1, 10);
    judge.refuses("10 before 11 and 9", &of([137, 8, 8, 7]), 1, 10);
    judge.refuses("10 before 9, sector 0", &of([0, 8, 0x0108, 8]), 1, 10);
    judge.refuses("11 before 9", &of([137, 8, 0, 7]), 1, 11);
    judge.refuses("11 before 9, far outside", &of([0xFFFF, 0, 0, 1]), 1, 11);
    judge.refuses("9 where 11 just isn't", &of([137, 8, 0, 8]), 1, 9);
}

/// The record list takes part in 9 and so comes after 11.
fn records(judge: &mut Judge) {
    let of = |words| plain().record(128, words);
    judge.refuses("10 before its list", &of([136, 8, 0x0108, 8]), 1, 10);
    judge.refuses("11 before its list", &of([136, 8, 0x0100, 7]), 1, 11);
    judge.refuses("its list where 11 isn't", &of([136, 8, 0x0100, 8]), 1, 9);
    // With sector 0 there is no stored length that 11 could be about.
    judge.refuses("9, sector 0, never 11", &of([0, 8, 0x0100, 1]), 1, 9);
}
