//! Text from outside, made harmless for terminals and for lines of a report.

use std::fmt::Write;

/// Printable ASCII as it is, a backslash doubled, and every other byte as `\xHH`.
pub fn escaped(text: &[u8]) -> String {
    let mut escaped = String::new();
    for &byte in text {
        match byte {
            b'\\' => escaped.push_str("\\\\"),
            b' '..=b'~' => escaped.push(char::from(byte)),
            // Writing to a string can't fail.
            _ => _ = write!(escaped, "\\x{byte:02X}"),
        }
    }
    escaped
}
