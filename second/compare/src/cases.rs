//! The cases: the requests that are made of the images of a kind.

use crate::calls::{Call, REQUESTS};
use crate::difference::{Difference, Place};
use crate::inputs::{Input, Kind};
use crate::seen::Seen;
use crate::streams::{number_of, stream};
use std::ops::{ControlFlow, Range};
use std::panic::{catch_unwind, AssertUnwindSafe};

/// One request of one image, for any call.
pub struct Case<'a> {
    pub kind: Kind,
    pub seed: u64,
    /// Counted through all requests of all images of the kind.
    pub number: u64,
    pub input: &'a Input,
}

/// Why a case failed.
pub enum Failure {
    Differs(Difference),
    Panicked,
}

/// Calls `visit` with these requests of each of these images, until it breaks.
pub fn each_case(
    kind: Kind,
    seed: u64,
    images: Range<u64>,
    requests: Range<u64>,
    visit: &mut impl FnMut(&Case) -> ControlFlow<()>,
) -> ControlFlow<()> {
    let inputs = kind.inputs(seed, images.clone());
    images.zip(inputs).try_for_each(|(image, input)| {
        requests.clone().try_for_each(|request| {
            visit(&Case {
                kind,
                seed,
                number: image * REQUESTS + request,
                input: &input,
            })
        })
    })
}

impl Case<'_> {
    fn request(&self) -> u64 {
        self.number % REQUESTS
    }

    /// Whether the call makes this request.
    pub fn is_made_by(&self, call: &dyn Call) -> bool {
        call.makes(self.kind, self.request())
    }

    /// Asks both programs. What is asked depends on the call, the kind, the seed
    /// and the number only.
    pub fn compare(&self, call: &dyn Call, seen: &mut Seen) -> Result<(), Failure> {
        let numbers = [self.kind as u64, self.number, number_of(call.name())];
        let mut random = stream(self.seed, &numbers);
        let compared = catch_unwind(AssertUnwindSafe(|| {
            call.compare(self.input, self.request(), &mut random, seen)
        }));
        match compared {
            Ok(compared) => compared.map_err(Failure::Differs),
            Err(_) => Err(Failure::Panicked),
        }
    }

    /// All that is needed to see the failure again.
    pub fn report(&self, call: &dyn Call, failure: &Failure) -> String {
        let place = Place {
            call: call.name(),
            kind: self.kind.name(),
            case: self.number,
            seed: self.seed,
            origin: &self.input.origin,
        };
        match failure {
            Failure::Differs(difference) => difference.report(&place, &self.input.bytes),
            Failure::Panicked => format!("{place}\n  it panicked"),
        }
    }
}
