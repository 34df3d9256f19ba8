//! Preparing a segment in safe Rust, written for speed: no allocation, every
//! check once, one pass over the sites.

mod bytes;
mod entries;
mod header;
mod record;
mod segment;
mod sites;

use crate::answer::{Answer, Request};
use record::{Record, Tables};
use segment::Segment;
use sites::Sites;

/// A refusal number and its record's number from 1, or 0.
type Refused = (u32, u32);

/// Prepares the segment into `output`, with a mark of 1 at each byte of a span.
/// A refusal leaves the output as it was and the marks zero.
pub fn prepare(request: &Request, output: &mut [u8], marks: &mut [u8]) -> Answer {
    marks.fill(0);
    match accepted(request, output, marks) {
        Ok(sites) => Answer::accepted(sites),
        Err((refusal, record)) => Answer::refused(refusal, record),
    }
}

/// The site count: 1 to 8, the entry table's 12 to 14, then 10, 11, 9, 21, then
/// the records.
fn accepted(request: &Request, output: &mut [u8], marks: &mut [u8]) -> Result<u32, Refused> {
    let (tables, segment) = checked(request).map_err(|number| (number, 0))?;
    let stored = segment.stored.len();
    if request.selectors.len() < tables.header.segment_count
        || request.answers.len() < segment.records.len() / 8
        || output.len() < segment.allocation
        || marks.len() < stored
    {
        return Err((21, 0));
    }
    let (prepared, rest) = output[..segment.allocation].split_at_mut(stored);
    let sites = if segment.records.is_empty() {
        prepared.copy_from_slice(segment.stored);
        0
    } else {
        by_size(&tables, &segment, prepared, &mut marks[..stored])?
    };
    rest.fill(0);
    Ok(sites)
}

/// The checks that need the image alone.
fn checked<'a>(request: &Request<'a>) -> Result<(Tables<'a>, Segment<'a>), u32> {
    let header = header::read(request.image)?;
    let row = segment::row(&header, request.number)?;
    entries::check(header.entries, header.segment_count)?;
    let segment = segment::read(request.image, row, header.shift)?;
    let tables = Tables {
        image: request.image,
        header,
        selectors: request.selectors,
        answers: request.answers,
    };
    Ok((tables, segment))
}

/// Takes an array that the segment fits in: to clear the largest costs more
/// than all the work on a small segment.
fn by_size(
    tables: &Tables,
    segment: &Segment,
    prepared: &mut [u8],
    marks: &mut [u8],
) -> Result<u32, Refused> {
    match segment.stored.len() {
        0..=1024 => in_array::<1024>(tables, segment, prepared, marks),
        1025..=8192 => in_array::<8192>(tables, segment, prepared, marks),
        _ => in_array::<65536>(tables, segment, prepared, marks),
    }
}

/// Does all records in a local array, so that a refusal leaves the output as it
/// was.
#[inline(never)]
fn in_array<const SIZE: usize>(
    tables: &Tables,
    segment: &Segment,
    prepared: &mut [u8],
    marks: &mut [u8],
) -> Result<u32, Refused> {
    let mut array = [0; SIZE];
    let scratch = &mut array[..segment.stored.len()];
    scratch.copy_from_slice(segment.stored);
    let done = all_records(tables, segment, scratch, marks);
    match done {
        Ok(_) => prepared.copy_from_slice(scratch),
        Err(_) => marks.fill(0),
    }
    done
}

/// Does the records in file order: 22, 23, and 24 to 26 at each site.
fn all_records(
    tables: &Tables,
    segment: &Segment,
    scratch: &mut [u8],
    marks: &mut [u8],
) -> Result<u32, Refused> {
    let mut sites = Sites::new(segment.stored, scratch, marks);
    let records = segment.records.chunks_exact(8);
    for ((number, bytes), &answer) in (1..).zip(records).zip(tables.answers) {
        Record::read(bytes)
            .and_then(|record| one_record(tables, &record, answer, &mut sites))
            .map_err(|refusal| (refusal, number))?;
    }
    Ok(sites.count())
}

/// Does the sites of one record; an OS fixup has none.
fn one_record(tables: &Tables, record: &Record, answer: u32, sites: &mut Sites) -> Result<(), u32> {
    if record.is_os() {
        return Ok(());
    }
    let target = tables.target(record, answer).ok_or(23u32)?;
    if record.is_additive() {
        sites.add(record.kind, record.site, target)
    } else {
        sites.chain(record.kind, record.site, target)
    }
}
