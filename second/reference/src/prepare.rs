//! Preparing one segment: its stored bytes, zeros up to the allocation, and
//! all its records' fixups done.

use crate::bytes::word;
use crate::entry::{entries, find, Entry};
use crate::fixup::{Address, Kind, Origin, Record};
use crate::header::{header, Header};
use crate::segment::{row, sound};

/// Preparing's refusal.
#[derive(Debug, Clone, Copy, PartialEq, Eq)]
pub struct Refused {
    /// The refusal number.
    pub number: u32,
    /// The record's number from 1 for 22 to 26, else 0.
    pub record: u32,
}

/// A refusal that is not at a record.
impl From<u32> for Refused {
    fn from(number: u32) -> Refused {
        Refused { number, record: 0 }
    }
}

/// What targets are resolved with.
struct Tables<'a> {
    image: &'a [u8],
    header: Header,
    entries: Vec<Option<Entry>>,
    selectors: &'a [u16],
}

impl Tables<'_> {
    fn target(&self, record: &Record, answer: u32) -> Option<Address> {
        let entry_of = |ordinal| find(&self.entries, ordinal);
        record.target(self.image, &self.header, entry_of, answer, self.selectors)
    }
}

/// A segment as far as it is prepared.
struct Work<'a> {
    /// The stored bytes, from which chains are read.
    stored: &'a [u8],
    /// The prepared bytes, as many as the allocation.
    prepared: Vec<u8>,
    /// For each stored byte, 1 where it lies in a span, else 0.
    marks: Vec<u8>,
    /// Sites followed.
    sites: u32,
}

/// Prepares segment `number` and gives its site count.
///
/// Accepted: output past the allocation is unchanged, and a mark is 1 exactly
/// at a byte of a span, else 0, past the stored length too. Refused: output
/// stays unchanged and marks become zero over their whole length.
pub fn prepare(
    image: &[u8],
    number: u32,
    selectors: &[u16],
    answers: &[u32],
    output: &mut [u8],
    marks: &mut [u8],
) -> Result<u32, Refused> {
    marks.fill(0);
    let room = (output.len(), marks.len());
    let work = work(image, number, selectors, answers, room)?;
    output[..work.prepared.len()].copy_from_slice(&work.prepared);
    marks[..work.marks.len()].copy_from_slice(&work.marks);
    Ok(work.sites)
}

/// Document 01, order after 1 to 7: 8, the entry table's 12 to 14, then 10,
/// 11, 9, 21, then records in file order. `room` is the output's and the
/// marks' length; for an accepted segment both are long enough.
fn work<'a>(
    image: &'a [u8],
    number: u32,
    selectors: &[u16],
    answers: &[u32],
    room: (usize, usize),
) -> Result<Work<'a>, Refused> {
    let header = header(image)?;
    let row = row(image, &header, number)?;
    let entries = entries(image, &header)?;
    let segment = sound(image, &row)?;
    // 21: selectors under the segment count, import answers under the record
    // count, output under the allocation, or marks under the stored length.
    if (selectors.len() as u64) < header.segment_count
        || answers.len() < segment.records as usize
        || room.0 < segment.allocation as usize
        || room.1 < segment.stored as usize
    {
        return Err(Refused::from(21));
    }
    let tables = Tables {
        image,
        header,
        entries,
        selectors,
    };
    let mut work = Work::start(segment.stored_bytes(image), segment.allocation as usize);
    // Import answers are indexed by record, internal and OS records included.
    // There are as many as records, or more.
    for ((record, bytes), &answer) in (1..).zip(segment.record_bytes(image)).zip(answers) {
        work.record(&tables, &Record::read(&bytes), answer)
            .map_err(|number| Refused { number, record })?;
    }
    Ok(work)
}

impl<'a> Work<'a> {
    /// The stored bytes, then zeros up to the allocation.
    fn start(stored: &'a [u8], allocation: usize) -> Work<'a> {
        let mut prepared = vec![0; allocation];
        prepared[..stored.len()].copy_from_slice(stored);
        Work {
            stored,
            prepared,
            marks: vec![0; stored.len()],
            sites: 0,
        }
    }

    /// Does one record: 22, 23, then its sites one by one.
    fn record(&mut self, tables: &Tables, record: &Record, answer: u32) -> Result<(), u32> {
        // 22: fixup type not 0, 2, 3, 5. Reading: the type is looked at first,
        // so an OS fixup of unknown type is 22 too.
        let kind = record.kind.ok_or(22u32)?;
        // An OS fixup changes no byte and has no site.
        if record.origin == Origin::Os {
            return Ok(());
        }
        // 23: fixup target doesn't resolve.
        let target = tables.target(record, answer).ok_or(23u32)?;
        self.follow(record, kind, target)
    }

    /// Does every site of one record. Additive: the one site. Otherwise the
    /// word at a site is the next site, and FFFFh ends the chain. The chain is
    /// read from the stored bytes and starts at the site word, so that a first
    /// site of FFFFh is a site.
    fn follow(&mut self, record: &Record, kind: Kind, target: Address) -> Result<(), u32> {
        let mut site = record.site;
        loop {
            self.take(usize::from(site), kind.span(record.additive))?;
            kind.write(
                record.additive,
                target,
                &mut self.prepared,
                usize::from(site),
            );
            if record.additive {
                return Ok(());
            }
            // A chained span has 2 bytes or more, so the word is there.
            site = word(self.stored, u64::from(site)).ok_or(24u32)?;
            if site == 0xFFFF {
                return Ok(());
            }
        }
    }

    /// Takes one site's span: at each site 24, 25, 26.
    fn take(&mut self, site: usize, span: usize) -> Result<(), u32> {
        // 24: span outside the stored bytes.
        let span = self.marks.get_mut(site..site + span).ok_or(24u32)?;
        // 25: span meets an earlier one, of any record, inside one chain too.
        if span.contains(&1) {
            return Err(25);
        }
        // 26: over 65,536 sites followed. It stands in the order, though
        // disjoint spans in 65,536 bytes leave no room for it.
        if self.sites >= 65_536 {
            return Err(26);
        }
        self.sites += 1;
        span.fill(1);
        Ok(())
    }
}
