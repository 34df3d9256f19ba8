//! What bits and numbers of the format are called.

#[cfg(test)]
mod tests;

/// What a flag word's bits are called where they are set, and where they are not.
type Bits = [(u16, Option<&'static str>, Option<&'static str>)];

const MODULE: &Bits = &[
    (0x8000, Some("library"), Some("program")),
    (0x0003, None, Some("no data segment of its own")),
    (0x0001, Some("one data segment"), None),
    (0x0002, Some("a data segment for each instance"), None),
    (0x0004, Some("real mode"), None),
    (0x0008, Some("protected mode"), None),
    (0x0800, Some("self-loading"), None),
    (0x2000, Some("errors when it was linked"), None),
    (0x4000, Some("nonconforming"), None),
];

const SEGMENT: &Bits = &[
    (0x0001, Some("data"), Some("code")),
    (0x0008, Some("iterated"), None),
    (0x0010, Some("movable"), Some("fixed")),
    (0x0020, Some("shareable"), None),
    (0x0040, Some("preload"), Some("load on call")),
    (0x0100, Some("fixups"), None),
    (0x0200, Some("debugging information"), None),
    (0xF000, Some("discardable"), None),
];

const RESOURCE: &Bits = &[
    (0x0010, Some("movable"), Some("fixed")),
    (0x0020, Some("shareable"), None),
    (0x0040, Some("preload"), Some("load on call")),
    (0xF000, Some("discardable"), None),
];

/// Types of resources by their numbers, which have the bit 8000h in a file. The
/// first name is the one that is written; all of them are read.
const TYPES: &[(u16, &[&str])] = &[
    (1, &["cursor"]),
    (2, &["bitmap"]),
    (3, &["icon"]),
    (4, &["menu"]),
    (5, &["dialog"]),
    (6, &["string"]),
    (7, &["fontdir"]),
    (8, &["font"]),
    (9, &["accelerator"]),
    (10, &["rcdata"]),
    (12, &["group_cursor", "groupcursor"]),
    (14, &["group_icon", "groupicon"]),
    (15, &["nametable"]),
    (16, &["version"]),
];

/// The bit of a type or an id that is a number and no name.
const NUMBER: u16 = 0x8000;

pub fn of_module(flags: u16) -> Vec<&'static str> {
    of_bits(MODULE, flags)
}

pub fn of_segment(flags: u16) -> Vec<&'static str> {
    of_bits(SEGMENT, flags)
}

pub fn of_resource(flags: u16) -> Vec<&'static str> {
    of_bits(RESOURCE, flags)
}

fn of_bits(bits: &Bits, flags: u16) -> Vec<&'static str> {
    let word = |&(mask, set, clear)| if flags & mask != 0 { set } else { clear };
    bits.iter().filter_map(word).collect()
}

/// The system for which a module is made, by the byte at 36h.
pub fn of_system(byte: u8) -> &'static str {
    match byte {
        1 => "OS/2",
        2 => "Windows",
        3 => "European MS-DOS 4",
        4 => "Windows/386",
        5 => "Borland's DOS extender",
        _ => "unknown",
    }
}

/// The name of a resource type, if it is one of the known numbers.
pub fn of_type(word: u16) -> Option<&'static str> {
    let mut types = TYPES.iter();
    let found = types.find(|(number, _)| number | NUMBER == word);
    found.map(|(_, names)| names[0])
}

/// The word of a type that is given by its name; capital and small letters are
/// the same.
pub fn type_named(name: &str) -> Option<u32> {
    let name = name.to_ascii_lowercase();
    let mut types = TYPES.iter();
    let found = types.find(|(_, names)| names.contains(&name.as_str()));
    found.map(|(number, _)| u32::from(number | NUMBER))
}

/// The word of a number that is given with or without the bit 8000h.
pub fn word_of(number: u32) -> u32 {
    match number {
        0..=0x7FFF => number | u32::from(NUMBER),
        _ => number,
    }
}

/// The number that a word stands for, or none if it is the place of a name.
pub fn number_of(word: u16) -> Option<u16> {
    (word & NUMBER != 0).then_some(word & !NUMBER)
}
