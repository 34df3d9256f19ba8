//! What the step leaves in lent memory.

use crate::bytes;
use crate::results::Values;
use std::fmt;

#[derive(Clone, PartialEq, Eq)]
pub struct Stepped {
    pub buffer: Vec<u8>,
}

impl Values for Stepped {
    type Fields = &'static [u8];

    fn of(buffer: Self::Fields) -> Self {
        Stepped {
            buffer: buffer.to_vec(),
        }
    }

    fn beside(&self, other: &Self) -> String {
        format!("buffer {}", bytes::beside(&self.buffer, &other.buffer))
    }
}

impl fmt::Debug for Stepped {
    fn fmt(&self, f: &mut fmt::Formatter<'_>) -> fmt::Result {
        write!(f, "buffer {}", bytes::text(&self.buffer))
    }
}
