//! Two or more checks that fail at once: the earlier one decides.

use super::super::fixups::{additive, chained, module, record, Module, Record};
use super::super::fixups::{FAR, LOW, OFFSET};
use super::super::minimal::Minimal;
use super::{asked, refused, Judge};
use crate::calls::{Held, Preparing};

pub fn edges(judge: &mut Judge) {
    each_before_each(judge);
    all_at_once(judge);
    in_one_record(judge);
    at_one_site(judge);
    record_by_record(judge);
}

/// A thing that is wrong before any record is looked at.
#[derive(Clone, Copy)]
struct Fault {
    refusal: u32,
    /// On the module, its image and the request.
    module: fn(&mut Module),
    image: fn(Minimal, &Module) -> Minimal,
    request: fn(&mut Preparing),
}

const NONE: Fault = Fault {
    refusal: 0,
    module: |_| {},
    image: |image, _| image,
    request: |_| {},
};

/// The entry table's, of which there can be one at a time.
fn of_entries() -> [Fault; 3] {
    let of = |refusal| Fault { refusal, ..NONE };
    [
        Fault {
            module: |module| module.entries = vec![1, 1, 0],
            ..of(12)
        },
        Fault {
            module: |module| module.entries = vec![1, 3, 0, 0, 0, 0],
            ..of(13)
        },
        Fault {
            module: |module| module.entries = [255, 0].repeat(258),
            ..of(14)
        },
    ]
}

/// In the order of refusal. The 9 is the segment's, far outside.
fn faults(of_entries: Fault) -> Vec<Fault> {
    let of = |refusal| Fault { refusal, ..NONE };
    vec![
        Fault {
            image: |image, _| image.ne_word(0x1E, 0xFFFF),
            ..of(7)
        },
        Fault {
            request: |request| request.number = 3,
            ..of(8)
        },
        of_entries,
        Fault {
            module: |module| module.flags |= 8,
            ..of(10)
        },
        Fault {
            module: |module| module.allocation = 3,
            ..of(11)
        },
        Fault {
            image: |image, _| image.put_word(128, 0xFFFF),
            ..of(9)
        },
        Fault {
            request: |request| request.selectors = Held::These(vec![1]),
            ..of(21)
        },
        Fault {
            module: |module| module.records[0][0] = 1,
            ..of(22)
        },
    ]
}

/// A module that has these faults is refused for the first of them.
fn refuses(judge: &mut Judge, faults: &[Fault]) {
    let mut module = module(&[0xFF; 4], &[chained(OFFSET, 0)]);
    for fault in faults {
        (fault.module)(&mut module);
    }
    let mut image = module.image();
    let mut request = asked(&module);
    for fault in faults {
        image = (fault.image)(image, &module);
        (fault.request)(&mut request);
    }
    let numbers: Vec<u32> = faults.iter().map(|fault| fault.refusal).collect();
    let expected = refused(numbers[0], u32::from(numbers[0] == 22));
    judge.expects(
        &format!("first of {numbers:?}"),
        &image,
        &request,
        &expected,
    );
}

fn each_before_each(judge: &mut Judge) {
    for of_entries in of_entries() {
        let all = faults(of_entries);
        for first in 0..all.len() {
            refuses(judge, &all[first..=first]);
            for second in first + 1..all.len() {
                refuses(judge, &[all[first], all[second]]);
            }
        }
    }
}

/// One fault less from edge to edge.
fn all_at_once(judge: &mut Judge) {
    for of_entries in of_entries() {
        let all = faults(of_entries);
        for first in 0..all.len() {
            refuses(judge, &all[first..]);
        }
    }
}

/// 22, then 23, then the sites.
fn in_one_record(judge: &mut Judge) {
    let of = |record: Record| module(&[0, 0, 0xFF, 0xFF], &[record]);
    judge.refuses_at("22 before 23", &of(record(1, 0, 2, 0, 0)), 22, 1);
    judge.refuses_at("22 before 24", &of(record(1, 0, 9, 1, 0)), 22, 1);
    judge.refuses_at("22 before 25", &of(record(4, 0, 0, 1, 0)), 22, 1);
    judge.refuses_at("22 before all", &of(record(7, 0, 9, 0, 0)), 22, 1);
    judge.refuses_at("23 before 24", &of(record(OFFSET, 0, 9, 0, 0)), 23, 1);
    judge.refuses_at("23 before 25", &of(record(OFFSET, 0, 0, 0, 0)), 23, 1);
    for (flags, first, last) in [(0, 255, 2), (1, 3, 0), (2, 3, 1), (2, 1, 0)] {
        let name = format!("23 before 24, flags {flags}, {first}, {last}");
        let unresolved = of(record(OFFSET, flags, 9, first, last));
        judge.refuses_at(&name, &unresolved, 23, 1);
    }
    judge.refuses_at("25 alone", &of(chained(OFFSET, 0)), 25, 1);
    judge.refuses_at("24 alone", &of(chained(OFFSET, 9)), 24, 1);
}

/// A span that leaves the stored bytes and meets another gives 24; a chain goes
/// on site by site, so that an early 25 comes before a later 24.
fn at_one_site(judge: &mut Judge) {
    let of = |stored: &[u8], records: &[Record]| module(stored, records);
    let both = of(&[0xFF; 4], &[additive(LOW, 3), additive(OFFSET, 3)]);
    judge.refuses_at("24 before 25", &both, 24, 2);
    let both = of(&[0xFF; 4], &[additive(LOW, 3), chained(LOW, 3)]);
    judge.refuses_at("24 before 25, a chained low byte", &both, 24, 2);
    for site in [1, 2, 3] {
        let both = of(&[0xFF; 4], &[additive(LOW, 3), additive(FAR, site)]);
        let name = format!("24 before 25, a far pointer at {site}");
        judge.refuses_at(&name, &both, 24, 2);
    }
    let chain = of(&[3, 0, 9, 0xFF], &[additive(LOW, 3), chained(OFFSET, 0)]);
    judge.refuses_at("24 before 25 at a second site", &chain, 24, 2);
    // It meets itself and leaves: from 0 to 1, of four bytes.
    let far = of(&[1, 0, 0xFF, 0xFF], &[chained(FAR, 0)]);
    judge.refuses_at("24 before 25 in one chain", &far, 24, 1);
    // The second site meets the first; the word there leads outside.
    let early = of(&[1, 0, 0x40, 0], &[chained(OFFSET, 0)]);
    judge.refuses_at("25 before a later 24", &early, 25, 1);
    let late = of(&[2, 0, 0x40, 0], &[chained(OFFSET, 0)]);
    judge.refuses_at("24 where nothing met before", &late, 24, 1);
}

/// All of one record before the next.
fn record_by_record(judge: &mut Judge) {
    let bad = [
        (22, record(1, 0, 0, 1, 0)),
        (23, record(OFFSET, 0, 0, 0, 0)),
        (24, chained(OFFSET, 9)),
        (25, chained(OFFSET, 0)),
    ];
    for (first, one) in bad {
        for (second, other) in bad {
            let both = module(&[0, 0, 0xFF, 0xFF], &[one, other]);
            let name = format!("{first} of record 1 before {second} of record 2");
            judge.refuses_at(&name, &both, first, 1);
            let good = additive(LOW, 3);
            let both = module(&[0, 0, 0xFF, 0xFF], &[good, other, one]);
            let name = format!("{second} of record 2 before {first} of record 3");
            judge.refuses_at(&name, &both, second, 2);
        }
    }
}
