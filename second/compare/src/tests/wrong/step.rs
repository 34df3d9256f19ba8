//! Steps that are wrong in one respect.

mod work;

use super::fixups::Fault;
use crate::answer::Answer;
use crate::calls::step::InPlace;
use crate::calls::{Function, InEveryOrder, Query, Step, Stepped, Stepping};
use work::faulty;

/// The right one, for the others to spoil.
pub fn right(image: &[u8], request: &Stepping) -> Answer<Stepped> {
    Step::reference(image, request).into()
}

/// Right too, and the one that faults are put in.
pub fn worked(image: &[u8], request: &Stepping) -> Answer<Stepped> {
    request.answered(|buffer| of(Fault::None, image, request, buffer))
}

/// A byte changes in a rare buffer.
pub fn rare_byte(image: &[u8], request: &Stepping) -> Answer<Stepped> {
    match right(image, request) {
        Answer::Accepted(mut stepped) => {
            if stepped.buffer.len() == 17 && request.record[0] & 15 == 5 {
                stepped.buffer[16] ^= 1;
            }
            Answer::Accepted(stepped)
        }
        other => other,
    }
}

fn of(fault: Fault, image: &[u8], request: &Stepping, buffer: &mut [u8]) {
    let selectors = request.selectors.items();
    faulty(
        fault,
        image,
        &request.record,
        request.answer,
        selectors,
        buffer,
    );
}

type Answered = fn(&[u8], &Stepping) -> Answer<Stepped>;

/// Both forms of a step with a fault: the query, and in place.
macro_rules! faulty {
    ($($fault:ident),+ $(,)?) => {
        [$((
            stringify!($fault),
            |image, request| request.answered(|buffer| of(Fault::$fault, image, request, buffer)),
            |image, record, answer, selectors, buffer| {
                faulty(Fault::$fault, image, record, answer, selectors, buffer);
            },
        )),+]
    };
}

pub type Wrong = (&'static str, Answered, InPlace);

/// Wrong in a sound segment too, so that the orders of its records show it.
pub const WRONG: [Wrong; 21] = faulty![
    WholeTypeByte,
    WholeFlagByte,
    OsIsInternal,
    AdditiveOs,
    NextByteRead,
    Segment254Missing,
    Segment255IsASegment,
    ModuleInAByte,
    StringOneByteLess,
    StringByOrdinalToo,
    AnswerHalvesExchanged,
    CarryIntoSelector,
    SelectorAdded,
    SelectorFirst,
    LowByteOf2,
    AdditiveReplaces,
    ChainedAdds,
    FirstSiteOnly,
    AdditiveIsChained,
    NextReadAfterWriting,
    AdditiveLowSpanOf2,
];

/// Wrong only where preparing would refuse.
pub const WRONG_APART: [Wrong; 17] = faulty![
    Type1Known,
    SegmentPastTheLast,
    NullOrdinalsResolve,
    ModulePastTheLast,
    StringNotLookedAt,
    EmptyStringIsSound,
    StringOneByteMore,
    ChainedLowSpanOf1,
    EndIsEmptyChain,
    OneSiteEarly,
    OneSiteMore,
    PartOfASpan,
    NothingIfOutside,
    StopsWhereSpansMeet,
    MissingSelectorIs0,
    UnsoundEntriesResolve,
    SelectorsByTheTable,
];

pub fn call(answer: Answered) -> Function<Step> {
    Function { answer }
}

/// Right preparing with these steps beside it.
pub fn in_every_order(step: InPlace) -> InEveryOrder {
    InEveryOrder {
        prepare: Function {
            answer: super::prepare::right,
        },
        step,
    }
}
