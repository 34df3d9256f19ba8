//! Demand 3 as a run: the steps over all records, in any order, give the
//! prepared bytes.

pub mod orders;

use orders::each_order;

use super::{Prepare, Prepared, Preparing};
use crate::answer::Answer;
use crate::bytes;
use crate::calls::step::{self, InPlace};
use crate::calls::{Amount, Call, Function, Query, Request};
use crate::difference::{Answers, Difference};
use crate::inputs::{Input, Kind};
use crate::seen::Seen;
use crate::stated;
use builder::Random;
use tally::Tally;

/// Preparing beside its reference; where it is accepted, the steps beside it.
#[derive(Clone, Copy)]
pub struct InEveryOrder {
    pub prepare: Function<Prepare>,
    pub step: InPlace,
}

const ORDERS: Amount = Amount {
    what: "orders of all records, done by steps",
    least: 500_000,
};

impl InEveryOrder {
    pub fn exported() -> Self {
        InEveryOrder {
            prepare: Function::exported(),
            step: step::exported,
        }
    }

    /// The orders tried, or the first one in which the steps don't give the
    /// prepared bytes. Which orders are tried depends on the seed.
    fn orders(
        &self,
        image: &[u8],
        request: &Preparing,
        prepared: &Prepared,
        seed: u64,
    ) -> Result<u64, Answers> {
        let Some(segment) = stated::segment(image, request.number) else {
            return Ok(0);
        };
        let mut start = segment.stored_bytes(image).to_vec();
        start.resize(segment.allocation, 0);
        let records = segment.record_bytes(image);
        let wanted = &prepared.output[..segment.allocation];
        let mut random = Random::new(seed);
        let mut tried = 0;
        each_order(records.len(), &mut random, &mut |order| {
            tried += 1;
            let done = self.done(image, request, &records, order, start.clone());
            match done == wanted {
                true => Ok(()),
                false => Err(apart(order, &done, wanted)),
            }
        })?;
        Ok(tried)
    }

    /// The buffer after a step for each record, in this order, each with its
    /// own answer.
    fn done(
        &self,
        image: &[u8],
        request: &Preparing,
        records: &[[u8; 8]],
        order: &[usize],
        mut buffer: Vec<u8>,
    ) -> Vec<u8> {
        let (selectors, answers) = (request.selectors.items(), request.answers.items());
        for &index in order {
            let (record, answer) = (&records[index], answers[index]);
            (self.step)(image, record, answer, selectors, &mut buffer);
        }
        buffer
    }

    fn difference(self, request: Preparing, seed: u64) -> Difference {
        Difference {
            request: format!("{}, then its records by steps", request.text()),
            differ: Box::new(move |image| match self.prepare.ask(image, &request) {
                Answer::Accepted(prepared) => self.orders(image, &request, &prepared, seed).err(),
                _ => None,
            }),
        }
    }
}

/// Both bytes as text.
fn apart(order: &[usize], done: &[u8], wanted: &[u8]) -> Answers {
    let order: Vec<String> = order.iter().map(|index| (index + 1).to_string()).collect();
    Answers {
        library: format!(
            "steps over records {} give {}",
            order.join(", "),
            bytes::beside(done, wanted)
        ),
        reference: format!("prepared are {}", bytes::beside(wanted, done)),
    }
}

impl Call for InEveryOrder {
    fn name(&self) -> &'static str {
        self.prepare.name()
    }

    fn answers(&self) -> &'static [u32] {
        self.prepare.answers()
    }

    fn amounts(&self) -> Vec<Amount> {
        let mut amounts = self.prepare.amounts();
        amounts.push(ORDERS);
        amounts
    }

    /// Of the many systematic images those that are about the damaged segment.
    fn makes(&self, kind: Kind, request: u64) -> bool {
        kind != Kind::Systematic || matches!(request, 0 | 2 | 4)
    }

    fn edges(&self) -> Box<dyn Iterator<Item = Tally>> {
        self.prepare.edges()
    }

    fn compare(
        &self,
        input: &Input,
        request: u64,
        random: &mut Random,
        seen: &mut Seen,
    ) -> Result<(), Difference> {
        let request = Prepare::worth_asking(input, request, random);
        let answer = self.prepare.compared(&input.bytes, &request, seen)?;
        let Answer::Accepted(prepared) = answer else {
            return Ok(());
        };
        let seed = random.next_u64();
        match self.orders(&input.bytes, &request, &prepared, seed) {
            Ok(tried) => seen.add(self.name(), ORDERS.what, tried),
            Err(_) => return Err(self.difference(request, seed)),
        }
        Ok(())
    }
}
