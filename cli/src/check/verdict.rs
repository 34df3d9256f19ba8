//! What is found of a file.

use crate::read::Input;
use crate::status::Status;
use parchgable::Refused;
use std::io;

/// The faults of one file that are listed at most. A file can have 65,535
/// segments, and all of them can be bad.
pub const LISTED: usize = 100;

/// A file that was looked at.
pub struct Checked {
    /// Its bytes and what they are found to be, or why they could not be read.
    pub found: io::Result<(Input, Verdict)>,
}

/// A part of a module that is refused by itself.
#[derive(Clone, Copy, Debug, PartialEq, Eq)]
pub enum Part {
    Header,
    Entries,
    Names,
    Module(u32),
    ResourceTable,
    Resource(u32),
    Segment(u32),
}

pub struct Fault {
    pub part: Part,
    pub why: Refused,
}

/// What is found of an image.
#[derive(Default)]
pub struct Verdict {
    /// The first faults, in the order of the parts.
    pub faults: Vec<Fault>,
    /// How many more there are.
    pub more: u32,
    /// The segments of the module, if its header is accepted.
    pub segments: u32,
    /// The sites of the segments that are accepted.
    pub sites: u64,
    /// The part with which the work would have been too much.
    pub stopped: Option<Part>,
}

/// The verdict in a word.
#[derive(Clone, Copy, PartialEq, Eq)]
pub enum Outcome {
    Accepted,
    Refused,
    /// Nothing was refused, and not all was checked.
    TooMuchWork,
    Unread,
}

impl Part {
    /// The number of a part that is one of several.
    pub fn number(self) -> Option<u32> {
        match self {
            Part::Module(number) | Part::Resource(number) | Part::Segment(number) => Some(number),
            Part::Header | Part::Entries | Part::Names | Part::ResourceTable => None,
        }
    }
}

impl Verdict {
    pub fn add(&mut self, part: Part, why: Refused) {
        match self.faults.len() {
            LISTED.. => self.more += 1,
            _ => self.faults.push(Fault { part, why }),
        }
    }

    pub fn outcome(&self) -> Outcome {
        match (self.faults.is_empty(), self.stopped) {
            (false, _) => Outcome::Refused,
            (true, Some(_)) => Outcome::TooMuchWork,
            (true, None) => Outcome::Accepted,
        }
    }
}

impl Checked {
    pub fn outcome(&self) -> Outcome {
        match &self.found {
            Ok((_, verdict)) => verdict.outcome(),
            Err(_) => Outcome::Unread,
        }
    }

    pub fn status(&self) -> Status {
        self.outcome().into()
    }
}

impl Outcome {
    pub const fn text(self) -> &'static str {
        match self {
            Outcome::Accepted => "accepted",
            Outcome::Refused => "refused",
            Outcome::TooMuchWork => "too much work",
            Outcome::Unread => "not read",
        }
    }
}

impl From<Outcome> for Status {
    /// What is not accepted is refused: no file is left between the two.
    fn from(outcome: Outcome) -> Status {
        match outcome {
            Outcome::Accepted => Status::Accepted,
            Outcome::Refused | Outcome::TooMuchWork => Status::Refused,
            Outcome::Unread => Status::Failed,
        }
    }
}
