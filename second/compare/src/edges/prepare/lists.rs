//! Refusal 21: the lengths of selectors, answers, output and marks.

use super::super::fixups::{self, additive, chained, module, record, Module, LOW, OFFSET};
use super::{prepared, refused, Judge};
use crate::answer::Answer;
use crate::calls::{Held, Preparing};

pub fn edges(judge: &mut Judge) {
    about_the_exact(judge);
    much_too_short(judge);
    nothing_needed(judge);
    counted_by_the_table(judge);
    greatest(judge);
}

/// Selectors, answers, output and marks.
type Lengths = [usize; 4];

fn asked(lengths: Lengths) -> Preparing {
    let [selectors, answers, output, marks] = lengths;
    Preparing {
        number: 1,
        selectors: Held::These(fixups::selectors(selectors)),
        answers: Held::These(fixups::answers(answers)),
        output: Held::These(Held::filled(output, 9)),
        marks: Held::These(Held::filled(marks, 0)),
    }
}

/// 2 segments, 2 records, 6 bytes in memory, 4 of them stored.
fn base() -> Module {
    module(&[0xFF; 4], &[chained(OFFSET, 0), additive(LOW, 3)]).allocation(6)
}

const NEEDED: Lengths = [2, 2, 6, 4];

fn accepts(judge: &mut Judge, name: &str, request: &Preparing) {
    let bytes = [0x34, 0x12, 0xFF, 0x33, 0, 0];
    let expected = prepared(request, &bytes, &[1, 1, 0, 1], 2);
    judge.expects(name, &base().image(), request, &Answer::Accepted(expected));
}

fn refuses(judge: &mut Judge, name: &str, module: &Module, request: &Preparing) {
    judge.expects(name, &module.image(), request, &refused(21, 0));
}

/// Each list one shorter, exact, or one longer, with each other.
fn about_the_exact(judge: &mut Judge) {
    for mix in 0..81 {
        let change = [mix % 3, mix / 3 % 3, mix / 9 % 3, mix / 27];
        let lengths: Lengths = std::array::from_fn(|list| NEEDED[list] + change[list] - 1);
        let name = format!("lengths {lengths:?} for {NEEDED:?}");
        match change.contains(&0) {
            true => refuses(judge, &name, &base(), &asked(lengths)),
            false => accepts(judge, &name, &asked(lengths)),
        }
    }
    accepts(
        judge,
        "much longer lists",
        &asked([300, 300, 70_000, 70_000]),
    );
}

/// Nothing at all of one list, which may stand anywhere.
fn much_too_short(judge: &mut Judge) {
    for address in [0, 1, 3, usize::MAX] {
        let requests = [
            Preparing {
                selectors: Held::NothingAt(address),
                ..asked(NEEDED)
            },
            Preparing {
                answers: Held::NothingAt(address),
                ..asked(NEEDED)
            },
            Preparing {
                output: Held::NothingAt(address),
                ..asked(NEEDED)
            },
            Preparing {
                marks: Held::NothingAt(address),
                ..asked(NEEDED)
            },
        ];
        for (list, request) in requests.iter().enumerate() {
            let name = format!("no list {list}, at address {address:X}h");
            refuses(judge, &name, &base(), request);
        }
    }
    refuses(judge, "no lists", &base(), &asked([0; 4]));
}

/// No answers without records, and no marks without stored bytes.
fn nothing_needed(judge: &mut Judge) {
    for address in [0, 1, 3, usize::MAX] {
        let none = Module {
            flags: 0,
            ..module(&[], &[]).allocation(2)
        };
        let request = Preparing {
            answers: Held::NothingAt(address),
            marks: Held::NothingAt(address),
            ..asked([2, 0, 2, 0])
        };
        let expected = Answer::Accepted(prepared(&request, &[0, 0], &[], 0));
        let name = format!("no answers and no marks at address {address:X}h");
        judge.expects(&name, &none.image(), &request, &expected);
        let name = format!("{name}, output short");
        let short = Preparing {
            output: Held::These(vec![7]),
            ..request
        };
        refuses(judge, &name, &none, &short);
    }
}

/// What the records do with the lists is no matter.
fn counted_by_the_table(judge: &mut Judge) {
    let none = module(&[1, 2], &[]);
    refuses(
        judge,
        "a selector that is not read",
        &none,
        &asked([1, 0, 2, 2]),
    );
    let os = module(&[1, 2], &[record(OFFSET, 3, 0, 0, 0)]);
    refuses(
        judge,
        "an answer that is not read",
        &os,
        &asked([2, 0, 2, 2]),
    );
    refuses(judge, "marks that stay 0", &none, &asked([2, 0, 2, 1]));
    let third = Module {
        segments: 3,
        ..none
    };
    refuses(judge, "2 selectors of 3", &third, &asked([2, 0, 2, 2]));
}

fn greatest(judge: &mut Judge) {
    let whole = vec![0x5A; 65_536];
    let os = record(OFFSET, 3, 0xFFFF, 0, 0);
    let module = module(&whole, &vec![os; 65_535]).without_tables(65_535);
    let needed = [65_535, 65_535, 65_536, 65_536];
    let request = asked(needed);
    let expected = Answer::Accepted(prepared(&request, &whole, &[], 0));
    let image = module.image();
    judge.expects("the greatest lengths", &image, &request, &expected);
    for list in 0..4 {
        let mut lengths = needed;
        lengths[list] -= 1;
        let name = format!("lengths {lengths:?} for the greatest");
        judge.expects(&name, &image, &asked(lengths), &refused(21, 0));
        lengths[list] = 0;
        let name = format!("lengths {lengths:?} for the greatest");
        judge.expects(&name, &image, &asked(lengths), &refused(21, 0));
    }
}
