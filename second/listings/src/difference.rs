//! The report of a listing that isn't as expected.

use crate::program::Written;
use builder::hexdump_lines;

/// Lines of a dump that are printed at most.
const LINES: usize = 100;

/// What was written and what is expected, where they first differ.
pub fn of_listing(written: &Written, expected: &[u8]) -> Vec<String> {
    let Written { output, errors } = written;
    let mut lines = Vec::new();
    if output != expected {
        let (place, program, wanted) = first_differing_line(output, expected);
        lines.push(format!(
            "  {} bytes were written for {}; they differ in line {place}",
            output.len(),
            expected.len()
        ));
        lines.push(format!("  program:   {program}"));
        lines.push(format!("  reference: {wanted}"));
    }
    if !errors.is_empty() {
        lines.push(format!("  standard error: {}", quoted(errors)));
    }
    lines
}

/// What was written, where nothing was to be listed.
pub fn of_written(written: &Written) -> [String; 2] {
    [
        format!("  standard output: {}", quoted(&written.output)),
        format!("  standard error: {}", quoted(&written.errors)),
    ]
}

/// The number of the line, from 1, and both lines.
fn first_differing_line(output: &[u8], expected: &[u8]) -> (usize, String, String) {
    let mut program = output.split_inclusive(|byte| *byte == b'\n');
    let mut reference = expected.split_inclusive(|byte| *byte == b'\n');
    let mut place = 1;
    loop {
        match (program.next(), reference.next()) {
            (Some(one), Some(other)) if one == other => place += 1,
            (one, other) => return (place, line(one), line(other)),
        }
    }
}

fn line(bytes: Option<&[u8]>) -> String {
    bytes.map_or("nothing".to_string(), quoted)
}

/// The bytes as text, or the first hundred of them.
fn quoted(bytes: &[u8]) -> String {
    match bytes.len() {
        0..=100 => format!("{:?}", String::from_utf8_lossy(bytes)),
        _ => quoted(&bytes[..100]) + " and so on",
    }
}

/// The image, after it was made as short as it may be.
pub fn of_shortened(image: &[u8]) -> Vec<String> {
    let dump = hexdump_lines(image, LINES);
    std::iter::once("  shortened, the image is".to_string())
        .chain(dump.iter().map(|line| format!("    {line}")))
        .collect()
}
