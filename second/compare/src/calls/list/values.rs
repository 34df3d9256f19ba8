//! What the listing gives and leaves in lent memory.

use crate::bytes;
use crate::results::Values;
use std::fmt;

#[derive(Clone, PartialEq, Eq)]
pub struct Listed {
    /// That of the whole text.
    pub length: usize,
    /// All of the room, as it is afterwards.
    pub room: Vec<u8>,
}

impl Values for Listed {
    type Fields = (usize, &'static [u8]);

    fn of((length, room): Self::Fields) -> Self {
        Listed {
            length,
            room: room.to_vec(),
        }
    }

    fn beside(&self, other: &Self) -> String {
        let room = bytes::beside(&self.room, &other.room);
        format!("length {}, room {room}", self.length)
    }
}

impl fmt::Debug for Listed {
    fn fmt(&self, f: &mut fmt::Formatter<'_>) -> fmt::Result {
        write!(
            f,
            "length {}, room {}",
            self.length,
            bytes::text(&self.room)
        )
    }
}
