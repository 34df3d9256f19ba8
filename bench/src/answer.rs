//! The question and the answer of preparing a segment.

/// What is asked: a segment of an image, with the lists that its records need.
#[derive(Clone, Copy)]
pub struct Request<'a> {
    /// The whole module.
    pub image: &'a [u8],
    /// The segment's number, from 1.
    pub number: u32,
    /// A selector for each segment.
    pub selectors: &'a [u16],
    /// An import answer for each record.
    pub answers: &'a [u32],
}

/// What is answered; all that doesn't apply is 0.
#[derive(Clone, Copy, Debug, Default, PartialEq, Eq)]
pub struct Answer {
    /// The refusal number, 0 for acceptance.
    pub refusal: u32,
    /// The record's number from 1 for refusals 22 to 26.
    pub record: u32,
    /// The site count of an accepted segment.
    pub sites: u32,
}

impl Answer {
    /// An acceptance.
    pub fn accepted(sites: u32) -> Answer {
        Answer {
            sites,
            ..Answer::default()
        }
    }

    /// A refusal, at a record or with record 0.
    pub fn refused(refusal: u32, record: u32) -> Answer {
        Answer {
            refusal,
            record,
            sites: 0,
        }
    }
}
