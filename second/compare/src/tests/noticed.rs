//! A call that remembers whether it ever differed, and isn't asked again then.
//! It reports no difference, since the reports of many calls take long.

use crate::calls::{Amount, Call};
use crate::difference::Difference;
use crate::inputs::{Input, Kind};
use crate::seen::Seen;
use builder::Random;
use std::cell::Cell;
use tally::Tally;

pub struct Noticed {
    call: Box<dyn Call>,
    differed: Cell<bool>,
}

impl Noticed {
    pub fn new(call: Box<dyn Call>) -> Self {
        Noticed {
            call,
            differed: Cell::new(false),
        }
    }

    pub fn differed(&self) -> bool {
        self.differed.get()
    }
}

impl Call for Noticed {
    fn name(&self) -> &'static str {
        self.call.name()
    }

    fn answers(&self) -> &'static [u32] {
        self.call.answers()
    }

    fn amounts(&self) -> Vec<Amount> {
        self.call.amounts()
    }

    fn makes(&self, kind: Kind, request: u64) -> bool {
        self.call.makes(kind, request)
    }

    fn edges(&self) -> Box<dyn Iterator<Item = Tally>> {
        self.call.edges()
    }

    fn compare(
        &self,
        input: &Input,
        request: u64,
        random: &mut Random,
        seen: &mut Seen,
    ) -> Result<(), Difference> {
        if !self.differed() {
            let compared = self.call.compare(input, request, random, seen);
            self.differed.set(compared.is_err());
        }
        Ok(())
    }
}
