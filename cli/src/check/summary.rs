//! How many files there are of each outcome.

use super::verdict::Outcome;
use crate::numbers::count;
use crate::status::Status;
use std::fmt;

#[derive(Default)]
pub struct Summary {
    accepted: usize,
    refused: usize,
    too_much_work: usize,
    unread: usize,
}

impl Summary {
    pub fn add(&mut self, outcome: Outcome) {
        *match outcome {
            Outcome::Accepted => &mut self.accepted,
            Outcome::Refused => &mut self.refused,
            Outcome::TooMuchWork => &mut self.too_much_work,
            Outcome::Unread => &mut self.unread,
        } += 1;
    }

    fn counts(&self) -> [(Outcome, usize); 4] {
        [
            (Outcome::Accepted, self.accepted),
            (Outcome::Refused, self.refused),
            (Outcome::Unread, self.unread),
            (Outcome::TooMuchWork, self.too_much_work),
        ]
    }

    /// The worst of all files.
    pub fn status(&self) -> Status {
        let found = self.counts().into_iter().filter(|(_, files)| *files > 0);
        let each = found.map(|(outcome, _)| Status::from(outcome));
        each.max().unwrap_or(Status::Accepted)
    }
}

impl fmt::Display for Summary {
    /// That there was too much work is rare, and only told where it was.
    fn fmt(&self, to: &mut fmt::Formatter) -> fmt::Result {
        let files: usize = self.counts().iter().map(|(_, files)| files).sum();
        let told =
            |(outcome, files): &(Outcome, usize)| *files > 0 || *outcome != Outcome::TooMuchWork;
        let counts = self.counts().into_iter().filter(told);
        let counts: Vec<String> = counts
            .map(|(outcome, files)| format!("{files} {}", outcome.text()))
            .collect();
        write!(to, "{}: {}", count(files, "file"), counts.join(", "))
    }
}
