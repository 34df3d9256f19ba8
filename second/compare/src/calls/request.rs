//! What is asked for beside the image.

use crate::library::Lent;

/// Nothing, a number, two words, a name's bytes, or what preparing, the step and
/// the listing take.
pub trait Request: Clone + 'static {
    /// As it is printed.
    fn text(&self) -> String;
}

/// The image as a whole, where there is nothing else to ask.
#[derive(Clone, Debug, PartialEq, Eq, PartialOrd, Ord)]
pub struct Whole;

impl Request for Whole {
    fn text(&self) -> String {
        "the image".to_string()
    }
}

impl Request for u32 {
    fn text(&self) -> String {
        format!("number {self}")
    }
}

/// A resource's type and id.
pub type Words = (u32, u32);

impl Request for Words {
    fn text(&self) -> String {
        let (type_word, id_word) = self;
        format!("type {type_word:X}h, id {id_word:X}h")
    }
}

/// A name's bytes; an empty name may be handed over at any address.
#[derive(Clone, Debug, PartialEq, Eq, PartialOrd, Ord)]
pub enum Text {
    Bytes(Vec<u8>),
    NothingAt(usize),
}

impl Text {
    pub fn of(bytes: &[u8]) -> Self {
        Text::Bytes(bytes.to_vec())
    }

    pub fn bytes(&self) -> &[u8] {
        match self {
            Text::Bytes(bytes) => bytes,
            Text::NothingAt(_) => &[],
        }
    }

    pub fn lent(&self) -> Lent<'_> {
        match self {
            Text::Bytes(bytes) => Lent::These(bytes),
            Text::NothingAt(address) => Lent::NothingAt(*address),
        }
    }
}

impl Request for Text {
    fn text(&self) -> String {
        match self {
            Text::Bytes(bytes) => {
                format!("name \"{}\" of {} bytes", bytes.escape_ascii(), bytes.len())
            }
            Text::NothingAt(address) => format!("no name, at address {address:X}h"),
        }
    }
}
