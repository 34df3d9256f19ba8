//! A hex dump of a prepared segment in which the bytes of fixups stand out.

#[cfg(test)]
mod tests;

use crate::colour::{self, Colour};

/// The bytes of a line.
const WIDTH: usize = 16;

/// How a fixup's bytes stand out.
#[derive(Clone, Copy, Debug, PartialEq, Eq)]
pub enum Style {
    /// By a sign after each.
    Signs,
    /// By colour, on a terminal.
    Colours,
}

/// What preparing did to a byte.
#[derive(Clone, Copy, Debug, PartialEq, Eq)]
enum Done {
    /// It lies in no fixup's span.
    Outside,
    Changed,
    /// It lies in a span and is as it was stored.
    Same,
}

/// A prepared segment beside what is stored of it.
pub struct Dump<'a> {
    pub bytes: &'a [u8],
    /// The stored bytes, and as many marks.
    pub stored: &'a [u8],
    pub marks: &'a [u8],
    pub style: Style,
}

impl Dump<'_> {
    /// All lines and the legend.
    pub fn lines(&self) -> impl Iterator<Item = String> + '_ {
        let starts = (0..self.bytes.len()).step_by(WIDTH);
        starts
            .map(|start| self.line(start))
            .chain([self.style.legend()])
    }

    fn line(&self, start: usize) -> String {
        let bytes = &self.bytes[start..];
        let bytes = &bytes[..bytes.len().min(WIDTH)];
        let mut line = format!("{start:04X}  ");
        for (index, &byte) in (start..).zip(bytes) {
            line += &self.style.byte(byte, self.done(index));
        }
        line += &"   ".repeat(WIDTH - bytes.len());
        let text: String = bytes.iter().map(printable).collect();
        format!("{line} |{text}|")
    }

    fn done(&self, index: usize) -> Done {
        match (self.marks.get(index), self.stored.get(index)) {
            (Some(1), Some(stored)) if *stored == self.bytes[index] => Done::Same,
            (Some(1), _) => Done::Changed,
            _ => Done::Outside,
        }
    }
}

impl Style {
    pub fn of_output() -> Style {
        match colour::on_output() {
            true => Style::Colours,
            false => Style::Signs,
        }
    }

    /// Three columns.
    fn byte(self, byte: u8, done: Done) -> String {
        match (self, done) {
            (_, Done::Outside) => format!("{byte:02X} "),
            (Style::Signs, Done::Changed) => format!("{byte:02X}*"),
            (Style::Signs, Done::Same) => format!("{byte:02X}+"),
            (Style::Colours, _) => format!("{} ", coloured(&format!("{byte:02X}"), done)),
        }
    }

    fn legend(self) -> String {
        let (changed, same) = ("changed by a fixup", "in a fixup's span and as stored");
        match self {
            Style::Signs => format!("* {changed}, + {same}"),
            Style::Colours => [(changed, Done::Changed), (same, Done::Same)]
                .map(|(text, done)| coloured(text, done))
                .join(", "),
        }
    }
}

/// Red where a fixup changed something, else green.
fn coloured(text: &str, done: Done) -> String {
    match done {
        Done::Changed => Colour::Red.paint(text),
        _ => Colour::Green.paint(text),
    }
}

fn printable(byte: &u8) -> char {
    match byte {
        b' '..=b'~' => char::from(*byte),
        _ => '.',
    }
}
