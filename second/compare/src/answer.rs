//! An answer of either program, in one shape.

use reference::Refused;
use std::fmt;

/// What a call gave for one request.
#[derive(Clone, Copy, Debug, PartialEq, Eq)]
pub enum Answer<T, W = u32> {
    Accepted(T),
    Refused(W),
    /// A refusal whose other values aren't all 0, or that left something else
    /// than it may in lent memory. No call may give this, so it equals no
    /// answer of the reference.
    Unclean {
        refusal: W,
        values: T,
    },
}

/// Why a request is refused: a number, and for preparing a record too.
pub trait Why: Copy + PartialEq + From<u32> + 'static {
    fn number(self) -> u32;

    /// As it is printed.
    fn text(self) -> String;
}

impl Why for u32 {
    fn number(self) -> u32 {
        self
    }

    fn text(self) -> String {
        format!("refusal {self}")
    }
}

impl Why for Refused {
    fn number(self) -> u32 {
        self.number
    }

    fn text(self) -> String {
        match self.record {
            0 => self.number.text(),
            record => format!("{} at record {record}", self.number.text()),
        }
    }
}

impl<T: PartialEq> Answer<T> {
    /// The answer that a result's fields make: refusal 0 is acceptance, and
    /// every other refusal comes with `zeros`.
    pub fn of_fields(refusal: u32, values: T, zeros: &T) -> Self {
        match refusal {
            0 => Answer::Accepted(values),
            _ if values == *zeros => Answer::Refused(refusal),
            _ => Answer::Unclean { refusal, values },
        }
    }
}

impl<T, W: Why> Answer<T, W> {
    /// The refusal's number, or 0.
    pub fn number(&self) -> u32 {
        match self {
            Answer::Accepted(_) => 0,
            Answer::Refused(refusal) | Answer::Unclean { refusal, .. } => refusal.number(),
        }
    }
}

impl<T, W> From<Result<T, W>> for Answer<T, W> {
    fn from(result: Result<T, W>) -> Self {
        match result {
            Ok(values) => Answer::Accepted(values),
            Err(refusal) => Answer::Refused(refusal),
        }
    }
}

impl<T: fmt::Debug, W: Why> fmt::Display for Answer<T, W> {
    fn fmt(&self, f: &mut fmt::Formatter<'_>) -> fmt::Result {
        match self {
            Answer::Accepted(values) => write!(f, "{values:?}"),
            Answer::Refused(refusal) => write!(f, "{}", refusal.text()),
            Answer::Unclean { refusal, values } => {
                write!(f, "{} with {values:?}", refusal.text())
            }
        }
    }
}
