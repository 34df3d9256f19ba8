//! What preparing gives and leaves in lent memory.

use crate::bytes;
use crate::results::Values;
use std::fmt;

#[derive(Clone, PartialEq, Eq)]
pub struct Prepared {
    pub sites: u32,
    /// All of the output and of the marks, as they are afterwards.
    pub output: Vec<u8>,
    pub marks: Vec<u8>,
}

impl Values for Prepared {
    type Fields = (u32, &'static [u8], &'static [u8]);

    fn of((sites, output, marks): Self::Fields) -> Self {
        Prepared {
            sites,
            output: output.to_vec(),
            marks: marks.to_vec(),
        }
    }

    fn beside(&self, other: &Self) -> String {
        let output = bytes::beside(&self.output, &other.output);
        let marks = bytes::beside(&self.marks, &other.marks);
        format!("{} sites, output {output}, marks {marks}", self.sites)
    }
}

impl fmt::Debug for Prepared {
    fn fmt(&self, f: &mut fmt::Formatter<'_>) -> fmt::Result {
        let (output, marks) = (bytes::text(&self.output), bytes::text(&self.marks));
        write!(f, "{} sites, output {output}, marks {marks}", self.sites)
    }
}
