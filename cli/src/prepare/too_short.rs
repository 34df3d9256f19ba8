//! Lists that are too short.

use super::Request;
use crate::failure::Failure;
use crate::numbers::count;
use parchgable::Refusal;

const SELECTORS: &str = "one for each segment of the module, the selector under which it is loaded";
const ANSWERS: &str = "one for each fixup record of the segment, the address of what it imports: \
    the selector in the high word, the offset in the low word; any number where it imports nothing";

impl Request<'_> {
    /// Says what each list needs that is too short.
    pub fn too_short(&self) -> Failure {
        // Both are accepted, since 21 is checked behind them.
        let segments = self.image.header().map_or(0, |found| found.segments);
        let segment = self.image.segment(self.number);
        let records = segment.map_or(0, |found| found.records);
        let lists = [
            ("--selectors", self.selectors.len(), segments, SELECTORS),
            ("--answers", self.answers.len(), records, ANSWERS),
        ];
        let short = lists.into_iter().filter(|list| list.1 < list.2 as usize);
        let messages = short.map(|(option, given, needed, what)| {
            let needed = count(needed as usize, "number");
            Failure::new(format_args!(
                "prepare: {option} needs {needed} and has {given}: {what}"
            ))
        });
        let none = || Failure::new(Refusal::TooLittleLent);
        messages.reduce(Failure::and).unwrap_or_else(none)
    }
}
