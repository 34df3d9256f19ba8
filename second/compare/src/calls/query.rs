//! A query: an exported function that takes an image and a request.

use super::{agree, differing, Amount, Call, Request, REQUESTS};
use crate::answer::{Answer, Why};
use crate::difference::Difference;
use crate::edges::judge::{self, Edges};
use crate::inputs::{Input, Kind};
use crate::library::Lent;
use crate::results::Values;
use crate::seen::Seen;
use builder::Random;
use tally::Tally;

/// What sets a query apart; [`Call`] follows from it.
pub trait Query: Sized + 'static {
    /// What is asked for, and what the memory holds that is lent for it.
    type Request: Request;

    /// The values of an accepted answer, and what it leaves in lent memory.
    type Values: Values;

    type Why: Why;

    /// What the exported function returns.
    type Result: Into<AnswerOf<Self>>;

    const NAME: &'static str;

    const ANSWERS: &'static [u32];

    /// Kinds of cases that a whole run must have so many of.
    const AMOUNTS: &'static [AmountOf<Self>] = &[];

    /// How many requests are worth making of one image.
    const WORTH: u64 = REQUESTS;

    fn exported(image: Lent, request: &Self::Request) -> Self::Result;

    fn reference(image: &[u8], request: &Self::Request) -> Result<Self::Values, Self::Why>;

    /// The answer that says this refusal.
    fn refused(_: &Self::Request, refusal: u32) -> AnswerOf<Self> {
        Answer::Refused(refusal.into())
    }

    /// A request that is worth making of the image; they are numbered under
    /// [`Query::WORTH`].
    fn worth_asking(input: &Input, request: u64, random: &mut Random) -> Self::Request;

    /// The edges by their subject.
    fn edges_by_subject() -> Vec<Edges<Self>>;
}

/// The fields of a query's accepted answer.
pub type FieldsOf<Q> = <<Q as Query>::Values as Values>::Fields;

pub type AnswerOf<Q> = Answer<<Q as Query>::Values, <Q as Query>::Why>;

/// A kind of cases, by the request and the answer that both programs gave.
pub struct AmountOf<Q: Query> {
    pub amount: Amount,
    pub counts: fn(&Q::Request, &AnswerOf<Q>) -> bool,
}

/// A function that answers a query.
pub struct Function<Q: Query> {
    /// The library's, or a wrong one in a test.
    pub answer: fn(&[u8], &Q::Request) -> Q::Result,
}

// Derived, these would want requests and results that can be copied.
impl<Q: Query> Copy for Function<Q> {}

impl<Q: Query> Clone for Function<Q> {
    fn clone(&self) -> Self {
        *self
    }
}

impl<Q: Query> Function<Q> {
    pub fn exported() -> Self {
        Function {
            answer: |image, request| Q::exported(Lent::These(image), request),
        }
    }

    pub fn ask(&self, image: &[u8], request: &Q::Request) -> AnswerOf<Q> {
        (self.answer)(image, request).into()
    }

    /// Asks both programs. An answer that they agree on is noted and given.
    pub fn compared(
        &self,
        image: &[u8],
        request: &Q::Request,
        seen: &mut Seen,
    ) -> Result<AnswerOf<Q>, Difference> {
        let library = self.ask(image, request);
        let reference = Q::reference(image, request).into();
        if !agree(Q::NAME, &library, &reference, seen) {
            return Err(self.difference(request.clone()));
        }
        for kind in Q::AMOUNTS {
            if (kind.counts)(request, &reference) {
                seen.add(Q::NAME, kind.amount.what, 1);
            }
        }
        Ok(reference)
    }

    fn difference(&self, request: Q::Request) -> Difference {
        let function = *self;
        Difference {
            request: request.text(),
            differ: Box::new(move |image| {
                let library = function.ask(image, &request);
                differing(library, Q::reference(image, &request).into())
            }),
        }
    }
}

impl<Q: Query> Call for Function<Q> {
    fn name(&self) -> &'static str {
        Q::NAME
    }

    fn answers(&self) -> &'static [u32] {
        Q::ANSWERS
    }

    fn amounts(&self) -> Vec<Amount> {
        Q::AMOUNTS.iter().map(|kind| kind.amount).collect()
    }

    fn makes(&self, _: Kind, request: u64) -> bool {
        request < Q::WORTH
    }

    fn edges(&self) -> Box<dyn Iterator<Item = Tally>> {
        let function = *self;
        let subjects = Q::edges_by_subject().into_iter();
        Box::new(subjects.map(move |edges| judge::run(function, edges)))
    }

    fn compare(
        &self,
        input: &Input,
        request: u64,
        random: &mut Random,
        seen: &mut Seen,
    ) -> Result<(), Difference> {
        let request = Q::worth_asking(input, request, random);
        self.compared(&input.bytes, &request, seen).map(|_| ())
    }
}
