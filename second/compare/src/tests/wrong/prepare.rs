//! Preparing that is wrong in one respect.

mod checks;
mod work;

use super::fixups::Fault;
use crate::answer::Answer;
use crate::calls::{Function, InEveryOrder, Prepare, Prepared, Preparing, Query};
use crate::results::PrepareResult;
use reference::Refused;
use work::Work;

/// The right one, for the others to spoil.
pub fn right(image: &[u8], request: &Preparing) -> Answer<Prepared, Refused> {
    Prepare::reference(image, request).into()
}

/// Right too, and the one that faults are put in.
pub fn worked(image: &[u8], request: &Preparing) -> Answer<Prepared, Refused> {
    faulty(image, request, Fault::None)
}

/// The site count is one more in a rare segment.
pub fn rare_count(image: &[u8], request: &Preparing) -> Answer<Prepared, Refused> {
    spoiled(image, request, |prepared| {
        if prepared.sites == 7 && prepared.output[0] % 4 == 1 {
            prepared.sites += 1;
        }
    })
}

/// A byte that is in no span changes in a rare segment.
pub fn rare_byte(image: &[u8], request: &Preparing) -> Answer<Prepared, Refused> {
    spoiled(image, request, |prepared| {
        let last = prepared.output.len() - 1;
        if prepared.sites == 6 && prepared.output[last] % 8 == 3 {
            prepared.output[last] ^= 1;
        }
    })
}

fn spoiled(
    image: &[u8],
    request: &Preparing,
    spoil: fn(&mut Prepared),
) -> Answer<Prepared, Refused> {
    match right(image, request) {
        Answer::Accepted(mut prepared) => {
            spoil(&mut prepared);
            Answer::Accepted(prepared)
        }
        refused => refused,
    }
}

/// Nothing is prepared but a copy.
fn copying(image: &[u8], request: &Preparing) -> Answer<Prepared, Refused> {
    match right(image, request) {
        Answer::Accepted(mut prepared) => {
            let segment = crate::stated::segment(image, request.number);
            if let Some(segment) = segment {
                let stored = segment.stored_bytes(image);
                prepared.output[..stored.len()].copy_from_slice(stored);
            }
            Answer::Accepted(prepared)
        }
        refused => refused,
    }
}

/// All is refused, in the way of a right refusal.
fn refusing(_: &[u8], request: &Preparing) -> Answer<Prepared, Refused> {
    request.answered(|_, marks| {
        marks.fill(0);
        Err(Refused::from(1)).into()
    })
}

/// Preparing that has this fault.
fn faulty(image: &[u8], request: &Preparing, fault: Fault) -> Answer<Prepared, Refused> {
    request.answered(|output, marks| {
        let lengths = (output.len(), marks.len());
        let mut work = Work::new(image, request, fault);
        let result = match checks::check(image, request, lengths, fault) {
            Ok(()) => work.records(),
            Err(number) => Err(Refused::from(number)),
        };
        work.deliver(result.is_ok(), output, marks);
        fields(result, &work, fault)
    })
}

fn fields(result: Result<u32, Refused>, work: &Work, fault: Fault) -> PrepareResult {
    let mut fields = PrepareResult::from(result);
    match fault {
        Fault::SitesInRefusals => fields.sites = work.sites,
        Fault::RecordInAcceptance if fields.refusal == 0 => fields.record = work.record,
        Fault::RecordBefore22 if fields.refusal == 21 => fields.record = 1,
        Fault::RecordInAByte => fields.record %= 256,
        Fault::RecordFrom0 => fields.record = fields.record.saturating_sub(1),
        _ => {}
    }
    fields
}

type Answered = fn(&[u8], &Preparing) -> Answer<Prepared, Refused>;

macro_rules! faulty {
    ($($fault:ident),+ $(,)?) => {
        [$((stringify!($fault), |image, request| {
            faulty(image, request, Fault::$fault)
        })),+]
    };
}

pub const WRONG: [(&str, Answered); 2] = [("copying", copying), ("refusing", refusing)];

/// What preparing and the step have in common.
pub const WRONG_FIXUPS: [(&str, Answered); 29] = faulty![
    WholeTypeByte,
    WholeFlagByte,
    Type1Known,
    OsTypeNotTested,
    OsIsInternal,
    AdditiveOs,
    NextByteRead,
    SegmentPastTheLast,
    Segment254Missing,
    Segment255IsASegment,
    NullOrdinalsResolve,
    ModulePastTheLast,
    ModuleInAByte,
    StringNotLookedAt,
    EmptyStringIsSound,
    StringOneByteMore,
    StringOneByteLess,
    StringByOrdinalToo,
    AnswerHalvesExchanged,
    CarryIntoSelector,
    SelectorAdded,
    SelectorFirst,
    LowByteOf2,
    AdditiveLowSpanOf2,
    ChainedLowSpanOf1,
    AdditiveReplaces,
    ChainedAdds,
    FirstSiteOnly,
    AdditiveIsChained,
];

pub const WRONG_WORK: [(&str, Answered); 38] = faulty![
    EndIsEmptyChain,
    OutputBeforeTheLastRecord,
    MarksLeft,
    MarksNotCleared,
    FirstRecordOnly,
    LastRecordLeftOut,
    SitesAreRecords,
    SitesWithOsFixups,
    SitesInRefusals,
    RecordInAcceptance,
    RecordFrom0,
    RecordInAByte,
    RecordBefore22,
    MeetingFirst,
    MeetingSeenBetweenRecordsOnly,
    ChainFromTheBuffer,
    SpansByAllocation,
    SumOfSiteWraps,
    MarksOfWrittenBytes,
    MarksOf255,
    MarksPastTheStoredLeft,
    OutputPastTheAllocationCleared,
    ZerosLeft,
    SelectorsOneShort,
    AnswersOneShort,
    OutputOneShort,
    MarksOneShort,
    SelectorsOneMore,
    AnswersOneMore,
    OutputOneMore,
    MarksOneMore,
    AnswersByImports,
    AnswersNotCounted,
    TargetBeforeType,
    AllTypesFirst,
    AllTargetsFirst,
    EntriesNotWalked,
    EntriesAfterTheSegment,
];

/// The order of checks before the records.
pub const WRONG_ORDER: [(&str, Answered); 1] = faulty![ListsBeforeTheSegment];

/// With right steps beside it.
pub fn call(answer: Answered) -> InEveryOrder {
    InEveryOrder {
        prepare: Function { answer },
        step: reference::step,
    }
}
