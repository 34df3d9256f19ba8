//! JSON objects on one line.

use parchgable::Refused;
use std::ffi::OsStr;
use std::fmt::{self, Display, Write};
use std::os::unix::ffi::OsStrExt;

/// An object, as far as its members are added.
#[derive(Default)]
pub struct Object {
    members: String,
}

impl Object {
    /// One that has a file's name. A name that is not UTF-8 has no exact string,
    /// so its bytes stand beside what can be written of it.
    pub fn of_file(file: &OsStr) -> Self {
        let object = Object::default().string("file", &file.to_string_lossy());
        match file.to_str() {
            Some(_) => object,
            None => object.string("file_hex", &hex(file.as_bytes())),
        }
    }

    pub fn string(self, name: &str, text: &str) -> Self {
        self.member(name, string(text))
    }

    pub fn number(self, name: &str, number: impl Into<u64>) -> Self {
        self.member(name, number.into())
    }

    /// Bytes that mostly are text: as a string in which every other byte than
    /// ASCII is the character of its number, so that none is lost.
    pub fn bytes(self, name: &str, bytes: &[u8]) -> Self {
        let text: String = bytes.iter().map(|byte| char::from(*byte)).collect();
        self.string(name, &text)
    }

    pub fn strings(self, name: &str, texts: &[&str]) -> Self {
        let texts: Vec<String> = texts.iter().map(|text| string(text)).collect();
        self.member(name, format_args!("[{}]", texts.join(",")))
    }

    pub fn object(self, name: &str, object: Object) -> Self {
        self.member(name, object)
    }

    pub fn boolean(self, name: &str, value: bool) -> Self {
        self.member(name, value)
    }

    /// An array.
    pub fn list(self, name: &str, objects: impl Iterator<Item: Display>) -> Self {
        let objects: Vec<String> = objects.map(|object| object.to_string()).collect();
        self.member(name, format_args!("[{}]", objects.join(",")))
    }

    /// Why something is refused.
    pub fn refused(self, why: &Refused) -> Self {
        let object = self.number("refusal", why.refusal.number());
        let object = match why.record {
            Some(record) => object.number("record", record),
            None => object,
        };
        object.string("text", why.refusal.text())
    }

    fn member(mut self, name: &str, value: impl Display) -> Self {
        let comma = if self.members.is_empty() { "" } else { "," };
        // Writing to a string can't fail.
        _ = write!(self.members, "{comma}\"{name}\":{value}");
        self
    }
}

impl Display for Object {
    fn fmt(&self, to: &mut fmt::Formatter) -> fmt::Result {
        write!(to, "{{{}}}", self.members)
    }
}

/// A string in quotes, of printable ASCII alone: what other characters do to a
/// line or a terminal need not be known.
fn string(text: &str) -> String {
    let mut string = String::from("\"");
    for unit in text.encode_utf16() {
        match u8::try_from(unit) {
            Ok(byte @ (b'"' | b'\\')) => string.extend(['\\', char::from(byte)]),
            Ok(byte @ b' '..=b'~') => string.push(char::from(byte)),
            // Writing to a string can't fail.
            _ => _ = write!(string, "\\u{unit:04X}"),
        }
    }
    string + "\""
}

fn hex(bytes: &[u8]) -> String {
    bytes.iter().map(|byte| format!("{byte:02X}")).collect()
}
