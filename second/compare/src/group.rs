//! One kind of input, compared with every call.

use crate::calls::{Call, REQUESTS};
use crate::cases::{each_case, Case};
use crate::inputs::Kind;
use crate::options::Options;
use crate::seen::Seen;
use std::ops::{ControlFlow, Range};
use tally::Tally;

/// Differences of one call that are printed; the others are only counted.
const PRINTED: u64 = 3;

/// A call with what came of it.
struct Asked<'a> {
    call: &'a dyn Call,
    cases: u64,
    differing: u64,
}

/// Each call counts as one check.
pub fn compare(kind: Kind, calls: &[&dyn Call], options: &Options, seen: &mut Seen) -> Tally {
    let mut asked: Vec<Asked> = calls.iter().map(|call| Asked::new(*call)).collect();
    let (images, requests) = (images(kind, options), requests(options));
    // Nothing breaks off: all cases are counted.
    let _ = each_case(kind, options.seed, images, requests, &mut |case| {
        for call in &mut asked {
            // A case that is asked for alone is always made.
            if options.only_case.is_some() || case.is_made_by(call.call) {
                call.ask(case, seen);
            }
        }
        ControlFlow::Continue(())
    });
    let mut tally = Tally::default();
    for call in asked {
        tally.count(call.close(kind));
    }
    tally
}

fn images(kind: Kind, options: &Options) -> Range<u64> {
    match options.only_case {
        Some(case) => case / REQUESTS..case / REQUESTS + 1,
        None => 0..kind.images(options.cases / REQUESTS),
    }
}

fn requests(options: &Options) -> Range<u64> {
    match options.only_case {
        Some(case) => case % REQUESTS..case % REQUESTS + 1,
        None => 0..REQUESTS,
    }
}

impl<'a> Asked<'a> {
    fn new(call: &'a dyn Call) -> Self {
        Asked {
            call,
            cases: 0,
            differing: 0,
        }
    }

    fn ask(&mut self, case: &Case, seen: &mut Seen) {
        self.cases += 1;
        if let Err(failure) = case.compare(self.call, seen) {
            self.differing += 1;
            if self.differing <= PRINTED {
                println!("{}", case.report(self.call, &failure));
            }
        }
    }

    /// Prints the line of this call; whether all cases were equal. A kind
    /// without cases has shown nothing.
    fn close(&self, kind: Kind) -> bool {
        let (call, cases, kind) = (self.call.name(), self.cases, kind.name());
        match self.differing {
            0 if cases > 0 => println!("{kind}: {call}, {cases} cases, all equal"),
            0 => println!("FAILED: {kind}: {call}, no cases"),
            differing => println!("FAILED: {kind}: {call}, {differing} of {cases} cases differ"),
        }
        cases > 0 && self.differing == 0
    }
}
