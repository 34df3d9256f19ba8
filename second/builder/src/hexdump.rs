//! A dump of an image that leaves out rows of zeros.

use std::fmt::Write;

const ROW: usize = 16;

/// Rows of 16 bytes with their places. A run of zero rows becomes one line
/// with its extent; the last line is the length.
pub fn hexdump(bytes: &[u8]) -> String {
    let mut text = String::new();
    let mut zeros_from = None;
    for (number, row) in bytes.chunks(ROW).enumerate() {
        let at = number * ROW;
        if row.iter().all(|byte| *byte == 0) {
            zeros_from.get_or_insert(at);
            continue;
        }
        end_zeros(&mut text, &mut zeros_from, at);
        push_row(&mut text, at, row);
    }
    end_zeros(&mut text, &mut zeros_from, bytes.len());
    let _ = writeln!(text, "{:08X}  length {}", bytes.len(), bytes.len());
    text
}

/// The dump's lines. Of more than `most` only the first ones and the length.
pub fn hexdump_lines(bytes: &[u8], most: usize) -> Vec<String> {
    let mut lines: Vec<String> = hexdump(bytes).lines().map(str::to_string).collect();
    if lines.len() > most {
        let length = lines.pop();
        lines.truncate(most);
        lines.push("and so on".to_string());
        lines.extend(length);
    }
    lines
}

fn end_zeros(text: &mut String, from: &mut Option<usize>, to: usize) {
    if let Some(from) = from.take() {
        let _ = writeln!(text, "{from:08X}  zeros up to {to:08X}");
    }
}

fn push_row(text: &mut String, at: usize, row: &[u8]) {
    let _ = write!(text, "{at:08X} ");
    for byte in row {
        let _ = write!(text, " {byte:02X}");
    }
    text.push('\n');
}
