//! What preparing is asked for.

use super::Prepared;
use crate::answer::Answer;
use crate::calls::{Held, Request};
use crate::results::PrepareResult;
use reference::Refused;

/// A segment's number and all that is lent; output and marks hold these bytes
/// as they come.
#[derive(Clone, Debug, PartialEq, Eq, PartialOrd, Ord)]
pub struct Preparing {
    pub number: u32,
    pub selectors: Held<u16>,
    pub answers: Held<u32>,
    pub output: Held<u8>,
    pub marks: Held<u8>,
}

impl Preparing {
    /// The answer that a result and what is left in lent memory make. A refusal
    /// leaves the output as it came and marks of zero.
    pub fn answered(
        &self,
        work: impl FnOnce(&mut [u8], &mut [u8]) -> PrepareResult,
    ) -> Answer<Prepared, Refused> {
        let mut output = self.output.items().to_vec();
        let mut marks = self.marks.items().to_vec();
        let result = work(&mut output, &mut marks);
        let left = output == self.output.items() && marks.iter().all(|mark| *mark == 0);
        let refusal = Refused {
            number: result.refusal,
            record: result.record,
        };
        let values = Prepared {
            sites: result.sites,
            output,
            marks,
        };
        match refusal.number {
            0 if refusal.record == 0 => Answer::Accepted(values),
            1.. if values.sites == 0 && left => Answer::Refused(refusal),
            _ => Answer::Unclean { refusal, values },
        }
    }
}

impl Request for Preparing {
    fn text(&self) -> String {
        let (selectors, answers) = (self.selectors.text(), self.answers.text());
        let (output, marks) = (self.output.text(), self.marks.text());
        format!(
            "segment {}, {selectors} selectors, {answers} answers, output of {output} bytes, \
             marks of {marks} bytes",
            self.number
        )
    }
}
