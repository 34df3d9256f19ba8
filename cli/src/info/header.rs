//! The header's section.

use super::raw::Raw;
use crate::failure::Failure;
use crate::json::Object;
use crate::numbers::count;
use crate::output::Output;
use crate::words;
use parchgable::{Header, Image};

/// The NE header, if there is one at the place that the MZ header says.
pub struct Headers<'a> {
    raw: Option<Raw<'a>>,
    /// The tables' places that the library has checked.
    tables: Option<Header>,
}

impl<'a> Headers<'a> {
    pub fn of(image: Image<'a>) -> Self {
        Headers {
            raw: Raw::of(image.bytes()).filter(Raw::is_ne),
            tables: image.header().ok(),
        }
    }

    /// Where the header is refused, what can be read of it is marked as unchecked.
    pub fn show(&self, output: &mut Output) -> Result<(), Failure> {
        let (title, tables) = match &self.tables {
            Some(tables) => ("Header", Some(*tables)),
            None => ("Header, unchecked", self.raw.as_ref().map(Raw::tables)),
        };
        writeln!(output, "{title}")?;
        let (Some(raw), Some(tables)) = (&self.raw, tables) else {
            return writeln!(output, "  there is no NE header that could be read");
        };
        let rows = of_module(raw).into_iter().chain(of_tables(raw, &tables));
        for (name, text) in rows {
            writeln!(output, "  {name:<18} {text}")?;
        }
        Ok(())
    }

    pub fn object(&self) -> Object {
        let object = Object::default().boolean("checked", self.tables.is_some());
        let tables = self.tables.or(self.raw.as_ref().map(Raw::tables));
        match (&self.raw, tables) {
            (Some(raw), Some(tables)) => add_tables(add_module(object, raw), &tables),
            _ => object,
        }
    }
}

/// Fields that no rule of document 01 looks at.
fn of_module(raw: &Raw) -> [(&'static str, String); 8] {
    let flags = raw.word(0x0C);
    [
        ("NE header", format!("at {}", raw.at())),
        ("linker", format!("{}.{}", raw.byte(0x02), raw.byte(0x03))),
        (
            "module",
            format!("{} (0x{flags:04X})", words::of_module(flags).join(", ")),
        ),
        ("target system", target(raw)),
        ("data segment", number_or_none(raw.word(0x0E))),
        (
            "heap and stack",
            format!("{} and {}", raw.word(0x10), bytes(raw.word(0x12).into())),
        ),
        (
            "entry point",
            address_or_none(raw.word(0x16), raw.word(0x14)),
        ),
        ("stack at", address_or_none(raw.word(0x1A), raw.word(0x18))),
    ]
}

fn of_tables(raw: &Raw, tables: &Header) -> [(&'static str, String); 8] {
    let at = |place: u32| format!("at {place}");
    let counted = |number: u32, place: u32| format!("{number} at {place}");
    [
        (
            "sector",
            format!("{}, shift {}", bytes(tables.unit), raw.word(0x32)),
        ),
        (
            "segment table",
            counted(tables.segments, tables.segments_at),
        ),
        (
            "entry table",
            format!("{} at {}", bytes(tables.entries_len), tables.entries_at),
        ),
        ("resource table", at(tables.resources_at)),
        ("resident names", at(tables.resident_at)),
        (
            "module references",
            counted(tables.modules, tables.modules_at),
        ),
        ("imported names", at(tables.imported_at)),
        (
            "nonresident names",
            format!(
                "{} at {}",
                bytes(tables.nonresident_len),
                tables.nonresident_at
            ),
        ),
    ]
}

fn bytes(length: u32) -> String {
    count(length, "byte")
}

/// The system, and the version that is expected of it unless that is 0.
fn target(raw: &Raw) -> String {
    let (system, name) = (raw.byte(0x36), words::of_system(raw.byte(0x36)));
    match (raw.byte(0x3F), raw.byte(0x3E)) {
        (0, 0) => format!("{name} ({system})"),
        (major, minor) => format!("{name} ({system}), version {major}.{minor:02}"),
    }
}

fn number_or_none(segment: u16) -> String {
    match segment {
        0 => "none".to_string(),
        _ => segment.to_string(),
    }
}

/// Segment 0 says that there is none.
fn address_or_none(segment: u16, offset: u16) -> String {
    match segment {
        0 => "none".to_string(),
        _ => format!("{segment}:{offset:04X}"),
    }
}

fn add_module(object: Object, raw: &Raw) -> Object {
    object
        .string("linker", &format!("{}.{}", raw.byte(0x02), raw.byte(0x03)))
        .number("flags", raw.word(0x0C))
        .strings("flag_words", &words::of_module(raw.word(0x0C)))
        .number("system", raw.byte(0x36))
        .string("system_word", words::of_system(raw.byte(0x36)))
        .string(
            "system_version",
            &format!("{}.{:02}", raw.byte(0x3F), raw.byte(0x3E)),
        )
        .number("data_segment", raw.word(0x0E))
        .number("heap", raw.word(0x10))
        .number("stack", raw.word(0x12))
        .number("entry_segment", raw.word(0x16))
        .number("entry_offset", raw.word(0x14))
        .number("stack_segment", raw.word(0x1A))
        .number("stack_offset", raw.word(0x18))
        .number("shift", raw.word(0x32))
}

fn add_tables(object: Object, tables: &Header) -> Object {
    object
        .number("header_at", tables.header_at)
        .number("segments_at", tables.segments_at)
        .number("segments", tables.segments)
        .number("modules_at", tables.modules_at)
        .number("modules", tables.modules)
        .number("entries_at", tables.entries_at)
        .number("entries_len", tables.entries_len)
        .number("nonresident_at", tables.nonresident_at)
        .number("nonresident_len", tables.nonresident_len)
        .number("resident_at", tables.resident_at)
        .number("imported_at", tables.imported_at)
        .number("resources_at", tables.resources_at)
}
