//! The step: one record done in a buffer.

mod draw;
mod request;
mod values;

pub use request::Stepping;
pub use values::Stepped;

use super::{Amount, AmountOf, Query};
use crate::answer::Answer;
use crate::edges::{self, judge::Edges};
use crate::inputs::Input;
use crate::library::{self, Lent, Room};
use builder::Random;

/// Asks for one record to be done in a lent buffer. It refuses nothing: what
/// can't be done leaves the buffer as it came.
pub struct Step;

/// A step on an image, a record, its answer and the selectors.
pub type InPlace = fn(&[u8], &[u8; 8], u32, &[u16], &mut [u8]);

/// The library's.
pub fn exported(image: &[u8], record: &[u8; 8], answer: u32, selectors: &[u16], buffer: &mut [u8]) {
    let (image, selectors) = (Lent::These(image), Lent::These(selectors));
    library::step(image, record, answer, selectors, Room::These(buffer));
}

impl Query for Step {
    type Request = Stepping;
    type Values = Stepped;
    type Why = u32;
    type Result = Answer<Stepped>;

    const NAME: &'static str = "ne_step";
    const ANSWERS: &'static [u32] = &[0];

    const AMOUNTS: &'static [AmountOf<Self>] = &[
        AmountOf {
            amount: Amount {
                what: "buffers that a step changes",
                least: 50_000,
            },
            counts: |request, answer| !left(request, answer),
        },
        AmountOf {
            amount: Amount {
                what: "buffers that a step leaves as they are",
                least: 50_000,
            },
            counts: left,
        },
    ];

    fn exported(image: Lent, request: &Stepping) -> Answer<Stepped> {
        request.answered(|buffer| {
            library::step(
                image,
                &request.record,
                request.answer,
                request.selectors.lent(),
                request.buffer.room(buffer),
            );
        })
    }

    fn reference(image: &[u8], request: &Stepping) -> Result<Stepped, u32> {
        let mut buffer = request.buffer.items().to_vec();
        let selectors = request.selectors.items();
        reference::step(
            image,
            &request.record,
            request.answer,
            selectors,
            &mut buffer,
        );
        Ok(Stepped { buffer })
    }

    fn worth_asking(input: &Input, request: u64, random: &mut Random) -> Stepping {
        draw::worth_stepping(input, request, random)
    }

    fn edges_by_subject() -> Vec<Edges<Self>> {
        edges::step::by_subject()
    }
}

/// Whether the buffer is as it came.
fn left(request: &Stepping, answer: &Answer<Stepped>) -> bool {
    matches!(answer, Answer::Accepted(stepped) if stepped.buffer == request.buffer.items())
}
