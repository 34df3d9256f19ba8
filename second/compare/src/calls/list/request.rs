//! What the listing is asked for.

use super::Listed;
use crate::answer::Answer;
use crate::calls::{Held, Request};

/// The room that is lent; it holds these bytes as it comes.
#[derive(Clone, Debug, PartialEq, Eq, PartialOrd, Ord)]
pub struct Listing {
    pub room: Held<u8>,
}

impl Listing {
    /// Room of so many bytes.
    pub fn in_room(length: usize) -> Self {
        Listing {
            room: Held::These(Held::filled(length, 0)),
        }
    }

    /// The answer that a length and what is left in the room make.
    pub fn answered(&self, work: impl FnOnce(&mut [u8]) -> usize) -> Answer<Listed> {
        let mut room = self.room.items().to_vec();
        let length = work(&mut room);
        Answer::Accepted(Listed { length, room })
    }

    /// The answer of which this is the whole text.
    pub fn says(&self, text: &str) -> Answer<Listed> {
        self.answered(|room| {
            for (byte, written) in room.iter_mut().zip(text.bytes()) {
                *byte = written;
            }
            text.len()
        })
    }
}

impl Request for Listing {
    fn text(&self) -> String {
        format!("room of {} bytes", self.room.text())
    }
}
