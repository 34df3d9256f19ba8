//! What the step is asked for.

use super::Stepped;
use crate::answer::Answer;
use crate::bytes;
use crate::calls::{Held, Request};

/// A record with its own import answer, and all that is lent; the buffer holds
/// these bytes as it comes.
#[derive(Clone, Debug, PartialEq, Eq, PartialOrd, Ord)]
pub struct Stepping {
    pub record: [u8; 8],
    pub answer: u32,
    pub selectors: Held<u16>,
    pub buffer: Held<u8>,
}

impl Stepping {
    /// The answer that what is left in the buffer makes.
    pub fn answered(&self, work: impl FnOnce(&mut [u8])) -> Answer<Stepped> {
        let mut buffer = self.buffer.items().to_vec();
        work(&mut buffer);
        Answer::Accepted(Stepped { buffer })
    }
}

impl Request for Stepping {
    fn text(&self) -> String {
        let (record, answer) = (bytes::text(&self.record), self.answer);
        let (selectors, buffer) = (self.selectors.text(), self.buffer.text());
        let held = bytes::text(self.buffer.items());
        format!(
            "record {record}, answer {answer:X}h, {selectors} selectors, buffer of {buffer} \
             bytes: {held}"
        )
    }
}
