//! Demands expected answers to a query of both programs.

use super::demand;
use super::minimal::Minimal;
use crate::answer::Answer;
use crate::calls::{AnswerOf, FieldsOf, Function, Query};
use crate::library::Lent;
use crate::results::Values;
use tally::Tally;

/// Edges with their subject.
pub type Edges<Q> = (&'static str, fn(&mut Judge<Q>));

pub fn run<Q: Query>(function: Function<Q>, (subject, edges): Edges<Q>) -> Tally {
    let mut judge = Judge {
        function,
        tally: Tally::default(),
    };
    edges(&mut judge);
    let group = format!("edges of {}, {subject}", Q::NAME);
    println!("{}", judge.tally.line(&group));
    judge.tally
}

/// Asks both programs and counts.
pub struct Judge<Q: Query> {
    function: Function<Q>,
    tally: Tally,
}

impl<Q: Query> Judge<Q> {
    pub fn accepts(
        &mut self,
        name: &str,
        image: &Minimal,
        request: Q::Request,
        fields: FieldsOf<Q>,
    ) {
        let expected = Answer::Accepted(Q::Values::of(fields));
        self.expects(name, image, &request, &expected);
    }

    pub fn refuses(&mut self, name: &str, image: &Minimal, request: Q::Request, refusal: u32) {
        self.expects(name, image, &request, &Q::refused(&request, refusal));
    }

    pub fn expects(
        &mut self,
        name: &str,
        image: &Minimal,
        request: &Q::Request,
        expected: &AnswerOf<Q>,
    ) {
        let bytes = image.bytes();
        let answers = [
            ("library", self.function.ask(bytes, request)),
            ("reference", Q::reference(bytes, request).into()),
        ];
        demand(&mut self.tally, name, expected, answers);
    }

    pub fn refuses_nothing_at(
        &mut self,
        name: &str,
        address: usize,
        request: &Q::Request,
        refusal: u32,
    ) {
        let expected = Q::refused(request, refusal);
        self.expects_of_nothing_at(name, address, request, &expected);
    }

    /// An image of 0 bytes, which the library may be handed at any address.
    pub fn expects_of_nothing_at(
        &mut self,
        name: &str,
        address: usize,
        request: &Q::Request,
        expected: &AnswerOf<Q>,
    ) {
        let library = Q::exported(Lent::NothingAt(address), request);
        let answers = [
            ("library", library.into()),
            ("reference", Q::reference(&[], request).into()),
        ];
        demand(&mut self.tally, name, expected, answers);
    }
}

impl<Q: Query<Request = u32>> Judge<Q> {
    /// Each power of two above 3, numbers next to it, and the greatest ones.
    pub fn refuses_above_3(&mut self, image: &Minimal, refusal: u32) {
        let next_to = |power: u32| power - 1..=power + 3;
        let powers = (3..32).flat_map(|bit| next_to(1 << bit));
        for number in powers.chain(0xFFFF_FFF0..=0xFFFF_FFFF) {
            self.refuses(&format!("{number} of 3"), image, number, refusal);
        }
    }
}
