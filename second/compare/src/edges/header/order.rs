//! Two checks that fail at once: the earlier one decides.

use super::{HeaderEdges, Judge, Minimal};

pub fn edges<Q: HeaderEdges>(judge: &mut Judge<Q>) {
    image_and_header(judge);
    tables(judge);
    before_the_rest(judge);
}

fn image_and_header<Q: HeaderEdges>(judge: &mut Judge<Q>) {
    let plain = Q::plain;
    let no_mz = || plain().put(0, b"ZM");
    judge.refuses_asked("1 before 3", &no_mz().length(63), 1);
    judge.refuses_others("1", &plain().length(63), 1);
    judge.refuses_asked("2 before 3", &no_mz().length(16_777_217), 2);
    let no_place = plain().length(16_777_217).put_dword(0x3C, 0);
    judge.refuses_asked("2 before 4", &no_place, 2);
    judge.refuses_asked("3 before 4", &no_mz().put_dword(0x3C, 63), 3);
    judge.refuses_asked("3 before 5", &no_mz().put(64, b"EN"), 3);
    judge.refuses_asked("4 before 5", &plain().put_dword(0x3C, 81), 4);
    judge.refuses_asked("4 before 5, place 63", &plain().put_dword(0x3C, 63), 4);
    // The header at 64 is cut one byte short; its shift is 16.
    let cut = Minimal::new().ne_word(0x32, 16).length(127);
    judge.refuses_asked("4 before 6", &cut, 4);
    let no_ne = || plain().put(64, b"EN");
    judge.refuses_asked("5 before 6", &no_ne().ne_word(0x32, 16), 5);
    judge.refuses_asked("5 before 7", &no_ne().ne_word(0x06, 81), 5);
    judge.refuses_others("5", &no_ne(), 5);
}

fn tables<Q: HeaderEdges>(judge: &mut Judge<Q>) {
    let shifted = || Q::plain().ne_word(0x32, 16);
    judge.refuses_asked("6 before 7, entries", &shifted().ne_word(0x06, 81), 6);
    judge.refuses_asked("6 before 7, segments", &shifted().ne_word(0x1C, 3), 6);
    judge.refuses_asked("6 before 7, modules", &shifted().ne_word(0x1E, 41), 6);
    judge.refuses_asked("6 before 7, names", &shifted().ne_word(0x20, 145), 6);
    judge.refuses_others("6", &shifted(), 6);
    judge.refuses_others("7", &Q::plain().ne_word(0x06, 81), 7);
}

/// The query's own checks come last. From edge to edge one more thing is wrong.
fn before_the_rest<Q: HeaderEdges>(judge: &mut Judge<Q>) {
    let long = Q::unsound().ne_word(0x1E, 41);
    judge.refuses_asked("7 before the query's own", &long, 7);
    let wrong = Q::unsound().ne_word(0x06, 0xFFFF);
    judge.refuses_all("7 of all from 7 on", &wrong, 7);
    let wrong = wrong.ne_word(0x32, 0xFFFF);
    judge.refuses_all("6 of all from 6 on", &wrong, 6);
    let wrong = wrong.put(64, b"\0\0");
    judge.refuses_all("5 of all from 5 on", &wrong, 5);
    let wrong = wrong.put_dword(0x3C, 0xFFFF_FFFF);
    judge.refuses_all("4 of all from 4 on", &wrong, 4);
    let wrong = wrong.put(0, b"\0\0");
    judge.refuses_all("3 of all from 3 on", &wrong, 3);
    judge.refuses_all("2 of all but 1", &wrong.clone().length(16_777_217), 2);
    judge.refuses_all("1 of all but 2", &wrong.length(63), 1);
}
