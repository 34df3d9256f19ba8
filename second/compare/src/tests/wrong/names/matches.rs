//! When a listed text is the one that is asked for, with a fault to choose.

use super::fault::Fault;

/// What is asked for.
#[derive(Clone, Copy)]
pub enum Asked<'a> {
    Number(u32),
    Text(&'a [u8]),
}

impl Asked<'_> {
    /// The refusal where both lists are sound.
    pub fn not_there(self) -> u32 {
        match self {
            Asked::Number(_) => 8,
            Asked::Text(_) => 17,
        }
    }

    /// Whether no list at all has it.
    pub fn is_never_there(self) -> bool {
        match self {
            Asked::Number(number) => number == 0,
            Asked::Text(text) => text.is_empty() || text.len() > 255,
        }
    }
}

impl Fault {
    pub fn holds_of(self, asked: &[u8], text: &[u8]) -> bool {
        match self {
            Fault::CaseFolded => asked.eq_ignore_ascii_case(text),
            Fault::PrefixFound => text.starts_with(asked),
            Fault::LongerFound => asked.starts_with(text),
            Fault::LengthIn8Bits => asked.len() % 256 == text.len() && asked.starts_with(text),
            Fault::HighBitIgnored => same(asked, text, |byte| byte & 0x7F),
            Fault::ZeroEndsTheText => up_to_zero(asked) == up_to_zero(text),
            Fault::LastByteIgnored => {
                asked.len() == text.len() && but_last(asked) == but_last(text)
            }
            _ => asked == text,
        }
    }
}

fn same(asked: &[u8], text: &[u8], of: impl Fn(u8) -> u8) -> bool {
    let equal = |(one, other): (&u8, &u8)| of(*one) == of(*other);
    asked.len() == text.len() && asked.iter().zip(text).all(equal)
}

fn up_to_zero(text: &[u8]) -> &[u8] {
    let end = text.iter().position(|byte| *byte == 0);
    &text[..end.unwrap_or(text.len())]
}

fn but_last(text: &[u8]) -> &[u8] {
    &text[..text.len().saturating_sub(1)]
}
