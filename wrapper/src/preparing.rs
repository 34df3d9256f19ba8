//! Preparing a segment, and doing one of its fixup records.

use crate::image::Image;
use crate::library;
use crate::refusal::{check, Refusal};
use std::error::Error;
use std::fmt;

/// Why a segment was not prepared.
#[derive(Clone, Copy, Debug, PartialEq, Eq)]
pub struct Refused {
    /// The first check that failed.
    pub refusal: Refusal,
    /// The number of the bad fixup record, in refusals 22 to 26.
    pub record: Option<u32>,
}

impl fmt::Display for Refused {
    fn fmt(&self, to: &mut fmt::Formatter) -> fmt::Result {
        let (number, text) = (self.refusal.number(), self.refusal.text());
        match self.record {
            Some(record) => write!(to, "refused {number} at record {record}: {text}"),
            None => self.refusal.fmt(to),
        }
    }
}

impl Error for Refused {}

/// A refusal that is at no record.
impl From<Refusal> for Refused {
    fn from(refusal: Refusal) -> Refused {
        Refused {
            refusal,
            record: None,
        }
    }
}

/// A segment with all its fixups done.
#[derive(Clone, Debug, PartialEq, Eq)]
pub struct Prepared {
    /// Its bytes, as many as the allocation.
    pub bytes: Vec<u8>,
    /// For each stored byte 1 if it lies in a fixup's span, else 0.
    pub marks: Vec<u8>,
    /// How many sites its fixups have together, 0 to 65,535.
    pub sites: u32,
}

impl Image<'_> {
    /// Prepares the segment of a number in lent memory and gives the number of
    /// its sites. Nothing is allocated.
    ///
    /// `selectors` has one for each segment of the module. `answers` has one
    /// for each record of this segment, whatever its kind, and is read where the
    /// record is an import: the offset in the low word, the selector in the high
    /// word. `output` has the allocation's length and `marks` the stored length.
    /// All may be longer.
    ///
    /// Accepted: `output` is as it came from the allocation's length on, and
    /// `marks` is 0 from the stored length on. Refused: `output` is as it came,
    /// and `marks` is 0 over its whole length.
    ///
    /// Refusals: 1 to 7, then 8, then 12 to 14 for the whole entry table, then
    /// 10, 11, 9, 21, then record by record 22 to 26.
    pub fn prepare(
        self,
        number: u32,
        selectors: &[u16],
        answers: &[u32],
        output: &mut [u8],
        marks: &mut [u8],
    ) -> Result<u32, Refused> {
        let done = library::prepare(self.bytes(), number, selectors, answers, output, marks);
        // Only a refusal at a record has a record, and they count from 1.
        let record = (done.record != 0).then_some(done.record);
        check(done.refusal).map_err(|refusal| Refused { refusal, record })?;
        Ok(done.sites)
    }

    /// Prepares the segment of a number in memory of its own, which is as long
    /// as needed; otherwise as [`Image::prepare`].
    pub fn prepared(
        self,
        number: u32,
        selectors: &[u16],
        answers: &[u32],
    ) -> Result<Prepared, Refused> {
        // A segment that is refused here is refused below for the first reason
        // in preparing's own order, before any length counts.
        let (allocation, stored) = match self.segment(number) {
            Ok(segment) => (segment.allocation as usize, segment.stored.len()),
            Err(_) => (0, 0),
        };
        let (mut bytes, mut marks) = (vec![0; allocation], vec![0; stored]);
        let sites = self.prepare(number, selectors, answers, &mut bytes, &mut marks)?;
        Ok(Prepared {
            bytes,
            marks,
            sites,
        })
    }

    /// Does one fixup record in a buffer. The stored bytes of a segment that is
    /// accepted, and zeros up to its allocation, become the prepared bytes by a
    /// step for each record, each with its own answer, in any order.
    ///
    /// The image's header and tables are read for the record's target only; the
    /// chain is read from the buffer. An OS fixup, an unknown type and a target
    /// that does not resolve change nothing.
    pub fn step(self, record: &[u8; 8], answer: u32, selectors: &[u16], buffer: &mut [u8]) {
        library::step(self.bytes(), record, answer, selectors, buffer);
    }
}
