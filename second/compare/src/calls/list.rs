//! The listing.

mod draw;
mod request;
mod values;

pub use request::Listing;
pub use values::Listed;

use super::{Amount, AmountOf, AnswerOf, Query};
use crate::answer::Answer;
use crate::edges::{self, judge::Edges};
use crate::inputs::Input;
use crate::library::{self, Lent};
use builder::Random;

/// Asks for the listing in lent room. It refuses nothing: a refusal is a line.
pub struct List;

/// The kinds of listings. One that is cut may say any of some refusals, and
/// counts for none.
macro_rules! kinds {
    ($($refusal:literal),+) => {
        &[
            $(AmountOf {
                amount: Amount {
                    what: concat!("listings that are `refused ", $refusal, "`"),
                    least: 1,
                },
                counts: |request, answer| {
                    has_room(answer) && *answer == List::refused(request, $refusal)
                },
            },)+
            AmountOf {
                amount: Amount {
                    what: "listings with room for all of them",
                    least: 50_000,
                },
                counts: |_, answer| has_room(answer),
            },
            AmountOf {
                amount: Amount {
                    what: "listings that are cut",
                    least: 50_000,
                },
                counts: |_, answer| !has_room(answer),
            },
            AmountOf {
                amount: Amount {
                    what: "listings with an entry",
                    least: 50_000,
                },
                counts: |_, answer| has_an_entry(answer),
            },
        ]
    };
}

impl Query for List {
    type Request = Listing;
    type Values = Listed;
    type Why = u32;
    type Result = Answer<Listed>;

    const NAME: &'static str = "ne_list";
    const ANSWERS: &'static [u32] = &[0];

    const AMOUNTS: &'static [AmountOf<Self>] = kinds![1, 2, 3, 4, 5, 6, 7, 12, 13, 14];

    fn exported(image: Lent, request: &Listing) -> Answer<Listed> {
        request.answered(|room| library::list(image, request.room.room(room)))
    }

    fn reference(image: &[u8], request: &Listing) -> Result<Listed, u32> {
        let mut room = request.room.items().to_vec();
        let length = reference::list(image, &mut room);
        Ok(Listed { length, room })
    }

    fn refused(request: &Listing, refusal: u32) -> AnswerOf<Self> {
        request.says(&format!("refused {refusal}\n"))
    }

    fn worth_asking(input: &Input, request: u64, random: &mut Random) -> Listing {
        draw::worth_listing(input, request, random)
    }

    fn edges_by_subject() -> Vec<Edges<Self>> {
        edges::list::by_subject()
    }
}

fn has_room(answer: &Answer<Listed>) -> bool {
    matches!(answer, Answer::Accepted(listed) if listed.length <= listed.room.len())
}

/// Longer than a line of ordinals and an end line.
fn has_an_entry(answer: &Answer<Listed>) -> bool {
    matches!(answer, Answer::Accepted(listed) if listed.length > "ordinals 65535\nend\n".len())
}
