//! Preparing a segment.

mod draw;
pub mod in_every_order;
mod request;
mod values;

pub use in_every_order::InEveryOrder;
pub use request::Preparing;
pub use values::Prepared;

use super::{Amount, AmountOf, Query};
use crate::answer::Answer;
use crate::edges::{self, judge::Edges};
use crate::inputs::Input;
use crate::library::{self, Lent};
use crate::results::PrepareResult;
use builder::Random;
use reference::Refused;

/// Asks for a segment to be prepared in lent memory.
pub struct Prepare;

impl Query for Prepare {
    type Request = Preparing;
    type Values = Prepared;
    type Why = Refused;
    type Result = Answer<Prepared, Refused>;

    const NAME: &'static str = "ne_prepare";
    /// 26 is never given: disjoint spans leave no room for so many sites.
    const ANSWERS: &'static [u32] = &[
        0, 1, 2, 3, 4, 5, 6, 7, 8, 9, 10, 11, 12, 13, 14, 21, 22, 23, 24, 25,
    ];

    const AMOUNTS: &'static [AmountOf<Self>] = &[
        AmountOf {
            amount: Amount {
                what: "accepted preparations",
                least: 50_000,
            },
            counts: |_, answer| answer.number() == 0,
        },
        AmountOf {
            amount: Amount {
                what: "accepted preparations with sites",
                least: 50_000,
            },
            counts: |_, answer| matches!(answer, Answer::Accepted(prepared) if prepared.sites > 0),
        },
        AmountOf {
            amount: Amount {
                what: "refused preparations",
                least: 50_000,
            },
            counts: |_, answer| answer.number() != 0,
        },
    ];

    fn exported(image: Lent, request: &Preparing) -> Self::Result {
        request.answered(|output, marks| {
            library::prepare(
                image,
                request.number,
                request.selectors.lent(),
                request.answers.lent(),
                request.output.room(output),
                request.marks.room(marks),
            )
        })
    }

    fn reference(image: &[u8], request: &Preparing) -> Result<Prepared, Refused> {
        let answer = request.answered(|output, marks| {
            let (selectors, answers) = (request.selectors.items(), request.answers.items());
            let number = request.number;
            reference::prepare(image, number, selectors, answers, output, marks).into()
        });
        match answer {
            Answer::Accepted(prepared) => Ok(prepared),
            Answer::Refused(refused) => Err(refused),
            unclean => panic!("the reference gives {unclean}"),
        }
    }

    fn worth_asking(input: &Input, request: u64, random: &mut Random) -> Preparing {
        draw::worth_preparing(input, request, random)
    }

    fn edges_by_subject() -> Vec<Edges<Self>> {
        edges::prepare::by_subject()
    }
}

/// What the function is to give for this answer.
impl From<Result<u32, Refused>> for PrepareResult {
    fn from(answer: Result<u32, Refused>) -> Self {
        let (refused, sites) = match answer {
            Ok(sites) => (Refused::from(0), sites),
            Err(refused) => (refused, 0),
        };
        PrepareResult {
            refusal: refused.number,
            record: refused.record,
            sites,
        }
    }
}
