//! Refusal 6: the alignment shift.

use super::{HeaderEdges, Judge, Minimal};

pub fn edges<Q: HeaderEdges>(judge: &mut Judge<Q>) {
    greatest(judge);
    without_tables(judge);
}

fn greatest<Q: HeaderEdges>(judge: &mut Judge<Q>) {
    let shifted = |shift| Q::in_header(64).ne_word(0x32, shift);
    for shift in [0, 1, 9, 14, 15] {
        judge.accepts_in_header(&format!("shift {shift}"), &shifted(shift));
    }
    for shift in [16, 17, 31, 32, 64, 0x0100, 0x0F00, 0x1000, 0x8000, 0xFFFF] {
        judge.refuses_asked(&format!("shift {shift}"), &shifted(shift), 6);
    }
}

fn without_tables<Q: HeaderEdges>(judge: &mut Judge<Q>) {
    let shifted = |shift| Minimal::new().ne_word(0x32, shift);
    judge.answers_without_tables("shift 15 without segments", &shifted(15));
    judge.refuses_asked("shift 16 without segments", &shifted(16), 6);
    judge.refuses_asked("shift FFFFh without segments", &shifted(0xFFFF), 6);
    judge.refuses_others("shift 16 without segments", &shifted(16), 6);
}
