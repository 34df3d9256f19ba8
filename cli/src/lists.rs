//! Lists of numbers: on the command line, or in a file after `@`.

use crate::arguments::Arguments;
use crate::failure::Failure;
use crate::numbers::number;
use crate::read;
use std::ffi::OsStr;
use std::os::unix::ffi::OsStrExt;

/// The numbers of an option, each of at most `most`. Without the option there
/// are none.
pub fn of_option(arguments: &Arguments, option: &str, most: u32) -> Result<Vec<u32>, Failure> {
    let value = arguments.value(option).unwrap_or_default().as_bytes();
    let numbers = match value.strip_prefix(b"@") {
        Some(path) => parse(&file(OsStr::from_bytes(path))?, most),
        None => parse(value, most),
    };
    numbers.map_err(|message| arguments.wrong(format_args!("{option}: {message}")))
}

/// A list's file. A longer one than any list needs is refused, so that no
/// endless one is read.
pub fn file(path: &OsStr) -> Result<Vec<u8>, Failure> {
    let bytes = read::needed(path)?.bytes;
    match bytes.len() {
        0..=read::LONGEST => Ok(bytes),
        _ => Err(Failure::of_file(path, "too long for a list")),
    }
}

/// Blanks, newlines and commas separate numbers. A comma needs numbers on both
/// sides: where one was forgotten, the others would move to wrong places.
fn parse(text: &[u8], most: u32) -> Result<Vec<u32>, String> {
    if text.trim_ascii().is_empty() {
        return Ok(Vec::new());
    }
    let mut numbers = Vec::new();
    for part in text.split(|byte| *byte == b',') {
        if part.trim_ascii().is_empty() {
            return Err("a number is missing beside a comma".to_string());
        }
        let words = part.split(u8::is_ascii_whitespace);
        let words = words.filter(|word| !word.is_empty());
        let parsed: Result<Vec<u32>, String> = words.map(|word| number(word, most)).collect();
        numbers.extend(parsed?);
    }
    Ok(numbers)
}
