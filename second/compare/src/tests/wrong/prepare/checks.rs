//! The checks before the records, with a fault to choose.

use crate::calls::Preparing;
use crate::stated;
use crate::tests::wrong::fixups::Fault;
use crate::tests::wrong::sound_header;

/// 1 to 7, 8, 12 to 14, 10, 11, 9 and 21. The lengths are the output's and the
/// marks'.
pub fn check(
    image: &[u8],
    request: &Preparing,
    lengths: (usize, usize),
    fault: Fault,
) -> Result<(), u32> {
    sound_header(image)?;
    let segment = reference::segment(image, request.number).map(|_| ());
    if segment == Err(8) {
        return Err(8);
    }
    match fault {
        Fault::EntriesAfterTheSegment => {
            segment?;
            entries(image)?;
        }
        Fault::EntriesNotWalked => segment?,
        Fault::ListsBeforeTheSegment => {
            entries(image)?;
            lists(image, request, lengths, fault)?;
            segment?;
        }
        _ => {
            entries(image)?;
            segment?;
        }
    }
    lists(image, request, lengths, fault)
}

fn entries(image: &[u8]) -> Result<(), u32> {
    match reference::ordinal(image, 0) {
        Err(refusal @ 12..=14) => Err(refusal),
        _ => Ok(()),
    }
}

fn lists(
    image: &[u8],
    request: &Preparing,
    (output, marks): (usize, usize),
    fault: Fault,
) -> Result<(), u32> {
    let Some(segment) = stated::segment(image, request.number) else {
        return Ok(());
    };
    let selectors = request.selectors.items().len();
    let answers = match fault {
        Fault::AnswersNotCounted => usize::MAX / 2,
        _ => request.answers.items().len(),
    };
    let lists = [
        (selectors, stated::segment_count(image) as usize),
        (answers, segment.records),
        (output, segment.allocation),
        (marks, segment.stored),
    ];
    let (short, more) = one_off(fault);
    let is_short = |(list, (length, needed)): (usize, (usize, usize))| {
        length + usize::from(short == Some(list)) < needed + usize::from(more == Some(list))
    };
    match lists.into_iter().enumerate().any(is_short) {
        true => Err(21),
        false => Ok(()),
    }
}

/// The list that may be one short, and the one that must be one longer.
fn one_off(fault: Fault) -> (Option<usize>, Option<usize>) {
    match fault {
        Fault::SelectorsOneShort => (Some(0), None),
        Fault::AnswersOneShort => (Some(1), None),
        Fault::OutputOneShort => (Some(2), None),
        Fault::MarksOneShort => (Some(3), None),
        Fault::SelectorsOneMore => (None, Some(0)),
        Fault::AnswersOneMore => (None, Some(1)),
        Fault::OutputOneMore => (None, Some(2)),
        Fault::MarksOneMore => (None, Some(3)),
        _ => (None, None),
    }
}
