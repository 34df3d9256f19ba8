//! Numbers on the command line and in lists, and counts in answers.

use crate::escape::escaped;

/// The bytes of a wrong number that are shown at most.
const SHOWN: usize = 40;

/// A number of decimal digits, or of hexadecimal ones after `0x`, of at most
/// `most`; or what is wrong with it.
pub fn number(text: &[u8], most: u32) -> Result<u32, String> {
    let hexadecimal = text.strip_prefix(b"0x").or(text.strip_prefix(b"0X"));
    let (digits, radix) = match hexadecimal {
        Some(digits) => (digits, 16),
        None => (text, 10),
    };
    // What is over 32 bits stays over 32 bits, however many digits follow.
    let add = |number: u64, digit: &u8| {
        let digit = char::from(*digit).to_digit(radix)?;
        Some((number * u64::from(radix) + u64::from(digit)).min(1 << 32))
    };
    let value = match digits {
        [] => None,
        _ => digits.iter().try_fold(0, add),
    };
    let value = value.ok_or_else(|| format!("'{}' is not a number", shown(text)))?;
    match u32::try_from(value) {
        Ok(number) if number <= most => Ok(number),
        _ => Err(format!("{} is over {most} (0x{most:X})", shown(text))),
    }
}

/// The text, or as much of it as fits a line.
pub fn shown(text: &[u8]) -> String {
    match text.len() {
        0..=SHOWN => escaped(text),
        _ => format!("{}...", escaped(&text[..SHOWN])),
    }
}

/// A count with its noun: `1 site`, `2 sites`.
pub fn count(number: impl TryInto<u64>, noun: &str) -> String {
    let number = number.try_into().unwrap_or(u64::MAX);
    let plural = if number == 1 { "" } else { "s" };
    format!("{number} {noun}{plural}")
}
