//! The second program's preparing, with its answer as the benchmark has it.

use crate::answer::{Answer, Request};

/// Prepares the segment with the second program.
pub fn prepare(request: &Request, output: &mut [u8], marks: &mut [u8]) -> Answer {
    let Request {
        image,
        number,
        selectors,
        answers,
    } = *request;
    match reference::prepare(image, number, selectors, answers, output, marks) {
        Ok(sites) => Answer::accepted(sites),
        Err(refused) => Answer::refused(refused.number, refused.record),
    }
}
