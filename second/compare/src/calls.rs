//! The exported calls, each beside its reference.
//!
//! A call has a file of its own and one line in [`all`].

mod header;
mod held;
pub mod list;
mod module;
mod name_by_bytes;
mod name_by_number;
mod numbers;
mod ordinal;
pub mod prepare;
mod query;
mod request;
mod resource_by_number;
mod resource_by_words;
mod segment;
pub mod step;

pub use header::HeaderQuery;
pub use held::Held;
pub use list::{List, Listing};
pub use module::ModuleQuery;
pub use name_by_bytes::NameByBytes;
pub use name_by_number::NameByNumber;
pub use ordinal::OrdinalQuery;
pub use prepare::{InEveryOrder, Prepare, Prepared, Preparing};
pub use query::{AmountOf, AnswerOf, FieldsOf, Function, Query};
pub use request::{Request, Text, Whole, Words};
pub use resource_by_number::ResourceByNumber;
pub use resource_by_words::ResourceByWords;
pub use segment::SegmentQuery;
pub use step::{Step, Stepped, Stepping};

use crate::answer::{Answer, Why};
use crate::difference::{Answers, Difference};
use crate::inputs::{Input, Kind};
use crate::results::Values;
use crate::seen::Seen;
use builder::Random;
use tally::Tally;

/// How many requests each call makes of one image.
pub const REQUESTS: u64 = 8;

/// Cases of one kind, and how many of them a whole run must have.
#[derive(Clone, Copy, Debug, PartialEq, Eq)]
pub struct Amount {
    pub what: &'static str,
    pub least: u64,
}

pub trait Call {
    /// The exported name.
    fn name(&self) -> &'static str;

    /// The answers that it can give; 0 is acceptance. Each must be reached.
    fn answers(&self) -> &'static [u32];

    /// The kinds of cases that a whole run must have so many of.
    fn amounts(&self) -> Vec<Amount>;

    /// Whether this request is made of images of this kind. It is left out where
    /// it takes long and shows little.
    fn makes(&self, _kind: Kind, _request: u64) -> bool {
        true
    }

    /// Demands the answers written out by hand of both programs, one subject
    /// after the other as the iterator goes on.
    fn edges(&self) -> Box<dyn Iterator<Item = Tally>>;

    /// Makes one request, numbered under [`REQUESTS`], of both programs. The
    /// answer is noted if they agree.
    fn compare(
        &self,
        input: &Input,
        request: u64,
        random: &mut Random,
        seen: &mut Seen,
    ) -> Result<(), Difference>;
}

pub fn all() -> Vec<Box<dyn Call>> {
    vec![
        Box::new(Function::<HeaderQuery>::exported()),
        Box::new(Function::<SegmentQuery>::exported()),
        Box::new(Function::<OrdinalQuery>::exported()),
        Box::new(Function::<NameByNumber>::exported()),
        Box::new(Function::<NameByBytes>::exported()),
        Box::new(Function::<ModuleQuery>::exported()),
        Box::new(Function::<ResourceByNumber>::exported()),
        Box::new(Function::<ResourceByWords>::exported()),
        Box::new(InEveryOrder::exported()),
        Box::new(Function::<Step>::exported()),
        Box::new(Function::<List>::exported()),
    ]
}

/// Notes an answer that both programs give.
fn agree<T: PartialEq, W: Why>(
    call: &'static str,
    library: &Answer<T, W>,
    reference: &Answer<T, W>,
    seen: &mut Seen,
) -> bool {
    let equal = library == reference;
    if equal {
        seen.note(call, reference.number());
    }
    equal
}

/// Both answers as text, if they differ.
fn differing<T: Values, W: Why>(library: Answer<T, W>, reference: Answer<T, W>) -> Option<Answers> {
    (library != reference).then(|| match (&library, &reference) {
        (Answer::Accepted(one), Answer::Accepted(other)) => Answers {
            library: one.beside(other),
            reference: other.beside(one),
        },
        _ => Answers {
            library: library.to_string(),
            reference: reference.to_string(),
        },
    })
}
