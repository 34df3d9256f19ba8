//! A run: the edges, every kind of input, and the answers that were reached.

use crate::calls::Call;
use crate::group;
use crate::inputs::{Kind, KINDS};
use crate::options::Options;
use crate::seen::Seen;
use tally::Tally;

const EDGES: &str = "edges";

/// What `--only` takes.
pub fn names(calls: &[Box<dyn Call>]) -> Vec<&'static str> {
    let kinds = KINDS.iter().map(|kind| kind.name());
    let calls = calls.iter().map(|call| call.name());
    [EDGES].into_iter().chain(kinds).chain(calls).collect()
}

pub fn run(calls: &[Box<dyn Call>], options: &Options) -> Tally {
    let chosen = Chosen::of(calls, options);
    let mut tally = Tally::default();
    if chosen.edges {
        for edges in chosen.calls.iter().flat_map(|call| call.edges()) {
            tally.add(edges);
        }
    }
    let mut seen = Seen::default();
    for kind in chosen.kinds {
        tally.add(group::compare(kind, &chosen.calls, options, &mut seen));
    }
    println!("{}", seen.table(&chosen.calls));
    // A part of a run can't be expected to reach all answers.
    if options.is_whole() {
        tally.add(seen.check(&chosen.calls));
    }
    tally
}

/// What is run: all, or what `--only` names.
struct Chosen<'a> {
    edges: bool,
    kinds: Vec<Kind>,
    calls: Vec<&'a dyn Call>,
}

impl<'a> Chosen<'a> {
    fn of(calls: &'a [Box<dyn Call>], options: &Options) -> Self {
        let only = options.only.as_deref();
        let named = |name: &str| only.is_none_or(|only| only == name);
        let one_call = calls.iter().any(|call| only == Some(call.name()));
        let edges = one_call || named(EDGES);
        let kinds = KINDS.into_iter();
        let calls = calls.iter().map(|call| call.as_ref());
        Chosen {
            edges: edges && options.only_case.is_none(),
            kinds: kinds
                .filter(|kind| one_call || named(kind.name()))
                .collect(),
            calls: calls
                .filter(|call| !one_call || named(call.name()))
                .collect(),
        }
    }
}
