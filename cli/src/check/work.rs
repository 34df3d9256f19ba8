//! The limit of the work on one file.

use crate::arguments::Arguments;
use crate::failure::Failure;
use parchgable::{Header, Segment};

/// Steps on one file at most, unless another number is given; a step takes about
/// a nanosecond.
///
/// Without a limit a file of a megabyte could keep a job for minutes: 65,535
/// segments that share 65,535 records, or one chain of sites. Steps are counted
/// and not timed, so that the verdict is the same on every machine.
pub const MOST: u32 = 1 << 30;

/// Bytes of a segment that take a step.
const BYTES: u64 = 16;
/// Steps for a segment of no bytes.
const SEGMENT: u64 = 64;
/// Steps for a byte of the entry table, which is checked again with each segment.
const ENTRIES: u64 = 4;
const RECORD: u64 = 16;
const SITE: u64 = 8;
/// Steps for a block of the resource table, which each resource passes that
/// comes after it.
const BLOCK: u64 = 8;

#[derive(Clone, Copy)]
pub struct Work {
    left: u64,
}

impl Work {
    /// What the options say.
    pub fn of(arguments: &Arguments) -> Result<Work, Failure> {
        let given = arguments.value("--work");
        match (arguments.has("--all"), given) {
            (true, Some(_)) => Err(arguments.wrong("give either --work or --all")),
            (true, None) => Ok(Work::without_limit()),
            (false, Some(steps)) => Ok(Work::of_steps(arguments.number(steps)?)),
            (false, None) => Ok(Work::default()),
        }
    }

    const fn of_steps(steps: u32) -> Work {
        Work { left: steps as u64 }
    }

    pub const fn without_limit() -> Work {
        Work { left: u64::MAX }
    }

    /// Is enough left for what is known of a segment before it is prepared? Then
    /// that is taken.
    pub fn takes_segment(&mut self, header: &Header, segment: &Segment) -> bool {
        let bytes = segment.stored.len() as u64 + u64::from(segment.allocation);
        let entries = u64::from(header.entries_len) * ENTRIES;
        let records = u64::from(segment.records) * RECORD;
        self.takes(SEGMENT + bytes / BYTES + entries + records)
    }

    /// The same for a segment whose record alone is looked at.
    pub fn takes_record(&mut self) -> bool {
        self.takes(SEGMENT)
    }

    /// The same for a resource of a table of so many blocks.
    pub fn takes_resource(&mut self, blocks: u64) -> bool {
        self.takes(SEGMENT + blocks * BLOCK)
    }

    /// Takes what a segment's sites were, and what is left at most.
    pub fn take_sites(&mut self, sites: u64) {
        self.left = self.left.saturating_sub(sites * SITE);
    }

    fn takes(&mut self, steps: u64) -> bool {
        let left = self.left.checked_sub(steps);
        self.left = left.unwrap_or_default();
        left.is_some()
    }
}

impl Default for Work {
    fn default() -> Self {
        Work::of_steps(MOST)
    }
}
