//! The work of one thread: rounds, each with a seed of its own.

use crate::shared::Shared;
use compare::calls::{Call, REQUESTS};
use compare::cases::{each_case, Case};
use compare::inputs::{Kind, KINDS};
use compare::seen::Seen;
use std::ops::ControlFlow;

/// The images of a round that are drawn from its seed: less than a second's.
const DRAWN: u64 = 2_000;

/// Rounds, until the thread is stopped.
pub fn work(calls: &[Box<dyn Call>], seeds: impl Iterator<Item = u64>, shared: &Shared) {
    let mut rounds = (0..).zip(seeds);
    // Only `shared` tells why it ended.
    let _ = rounds.try_for_each(|(round, seed)| one_round(calls, round, seed, shared));
}

/// The seeds of one thread; no other one has any of them.
pub fn seeds(first: u64, thread: u64, threads: u64) -> impl Iterator<Item = u64> {
    let next = move |seed: &u64| Some(seed.wrapping_add(threads));
    std::iter::successors(Some(first.wrapping_add(thread)), next)
}

/// The kinds of input in a round, which are counted from 0. Images that are the
/// same every time, so that only what is asked of them is new, come up rarely.
pub fn kinds(round: u64) -> impl Iterator<Item = Kind> {
    let comes_up = move |kind: &Kind| match kind {
        Kind::Sound | Kind::Damaged | Kind::RandomBytes => true,
        Kind::Special => round % 16 == 15,
        Kind::Systematic => round % 256 == 255,
    };
    KINDS.into_iter().filter(comes_up)
}

fn one_round(calls: &[Box<dyn Call>], round: u64, seed: u64, shared: &Shared) -> ControlFlow<()> {
    let mut seen = Seen::default();
    let flow = kinds(round).try_for_each(|kind| {
        let images = 0..kind.images(DRAWN);
        each_case(kind, seed, images, 0..REQUESTS, &mut |case| {
            one_case(calls, case, &mut seen, shared)
        })
    });
    shared.add(&seen);
    flow
}

/// Compares every call that makes the request.
fn one_case(
    calls: &[Box<dyn Call>],
    case: &Case,
    seen: &mut Seen,
    shared: &Shared,
) -> ControlFlow<()> {
    let calls = calls.iter().map(|call| call.as_ref());
    let mut calls = calls.filter(|call| case.is_made_by(*call));
    calls.try_for_each(|call| {
        if let Err(failure) = case.compare(call, seen) {
            shared.differ(|| case.report(call, &failure));
        }
        shared.count()
    })
}
