//! Refusal 14: over 65,535 ordinals, null ones included.

use super::{ended, fixed, in_fixed, in_movable, module, movable, nulls, Judge};

pub fn edges(judge: &mut Judge) {
    null_bundles(judge);
    small_bundles(judge);
    last_bundle(judge);
    all_kinds(judge);
    far_past(judge);
}

/// 65,535 is 257 times 255.
fn null_bundles(judge: &mut Judge) {
    for count in [65_279, 65_280, 65_534, 65_535] {
        let name = format!("{count} null");
        judge.refuses_all(&name, &module(1, &ended(&[&nulls(count)])), 15);
    }
    for count in [65_536, 65_537, 65_789, 65_790, 65_791] {
        let name = format!("{count} null");
        judge.refuses_all(&name, &module(1, &ended(&[&nulls(count)])), 14);
    }
}

/// The count of bundles plays no part; the most are 32,767.
fn small_bundles(judge: &mut Judge) {
    let threes = [3, 0].repeat(21_845);
    judge.refuses_all("21,845 of 3", &module(1, &ended(&[&threes])), 15);
    let one_more = module(1, &ended(&[&threes, &[1, 0]]));
    judge.refuses_all("21,845 of 3 and 1", &one_more, 14);
    let twos = module(1, &ended(&[&[2, 0].repeat(32_767)]));
    judge.refuses_all("32,767 of 2", &twos, 15);
    let used = module(1, &ended(&[&[2, 0].repeat(32_764), &fixed(1, 1)]));
    judge.accepts("an entry behind 65,528 in twos", &used, 65_529, in_fixed(1));
}

/// The last bundle reaches 65,535 exactly, or passes it by one.
fn last_bundle(judge: &mut Judge) {
    for count in [1, 2, 255] {
        let before = 65_535 - usize::from(count);
        let kinds = [
            ("fixed", fixed(1, count), in_fixed(1)),
            ("movable", movable(1, count), in_movable(1)),
        ];
        for (kind, bundle, entry) in kinds {
            let name = format!("{count} {kind} at the end");
            let whole = module(1, &ended(&[&nulls(before), &bundle]));
            judge.accepts(&format!("{name}, the last"), &whole, 65_535, entry);
            let first = before as u32 + 1;
            judge.accepts(&format!("{name}, the first"), &whole, first, entry);
            judge.refuses(&format!("{name}, before it"), &whole, first - 1, 15);
            for number in [0, 65_536, 65_537, 131_071, 0xFFFF_FFFF] {
                judge.refuses(&format!("{name}, {number}"), &whole, number, 15);
            }
            let over = module(1, &ended(&[&nulls(before + 1), &bundle]));
            judge.refuses_all(&format!("{name}, one over"), &over, 14);
        }
        let over = module(1, &ended(&[&nulls(before + 1), &[count, 0]]));
        judge.refuses_all(&format!("{count} null at the end, one over"), &over, 14);
    }
}

/// Null bundles count between the others and behind them.
fn all_kinds(judge: &mut Judge) {
    let used = [fixed(1, 255).repeat(20), movable(1, 255).repeat(20)].concat();
    let table = |nulls_behind| ended(&[&nulls(100), &used, &nulls(nulls_behind)]);
    let whole = module(1, &table(55_235));
    judge.accepts("the first used", &whole, 101, in_fixed(1));
    judge.accepts("the last fixed", &whole, 5_200, in_fixed(1));
    judge.accepts("the first movable", &whole, 5_201, in_movable(1));
    judge.accepts("the last used", &whole, 10_300, in_movable(1));
    judge.refuses("the first null behind", &whole, 10_301, 15);
    judge.refuses("the last null", &whole, 65_535, 15);
    judge.refuses_all("one more null", &module(1, &table(55_236)), 14);
}

/// Twice round a 16-bit count, so that it would be small again.
fn far_past(judge: &mut Judge) {
    for count in [65_536 + 4, 131_072, 131_072 + 4, 1_000_000] {
        let table = ended(&[&nulls(count), &fixed(1, 1)]);
        judge.refuses_all(&format!("{count} null and a fixed"), &module(1, &table), 14);
    }
}
