//! What accepted queries answer.

/// Where the tables of a module stand. A table of size 0 may be said to stand
/// anywhere, and the places of the resident names, the imported names and the
/// resource table may leave the image: who reads one of them checks it.
#[derive(Clone, Copy, Debug, PartialEq, Eq)]
pub struct Header {
    /// The place of the NE header.
    pub header_at: u32,
    /// The bytes of a sector: 2 to the alignment shift.
    pub unit: u32,
    /// The place of the segment table.
    pub segments_at: u32,
    /// How many segments there are, 0 to 65,535.
    pub segments: u32,
    /// The place of the module references.
    pub modules_at: u32,
    /// How many module references there are, 0 to 65,535.
    pub modules: u32,
    /// The place of the entry table.
    pub entries_at: u32,
    /// The bytes of the entry table, 0 to 65,535.
    pub entries_len: u32,
    /// The place of the nonresident names.
    pub nonresident_at: u32,
    /// The bytes of the nonresident names, 0 to 65,535.
    pub nonresident_len: u32,
    /// The place of the resident names.
    pub resident_at: u32,
    /// The place of the imported names.
    pub imported_at: u32,
    /// The place of the resource table.
    pub resources_at: u32,
}

/// One segment.
#[derive(Clone, Copy, Debug, PartialEq, Eq)]
pub struct Segment<'a> {
    /// The place of the stored bytes.
    pub start: u32,
    /// The stored bytes, 0 to 65,536 of them.
    pub stored: &'a [u8],
    /// The flag word of its record in the segment table.
    pub flags: u16,
    /// The bytes that it takes in memory, 1 to 65,536.
    pub allocation: u32,
    /// How many fixup records it has, 0 to 65,535.
    pub records: u32,
}

/// The entry of an ordinal.
#[derive(Clone, Copy, Debug, PartialEq, Eq)]
pub struct Entry {
    /// The segment's number, 1 to 255.
    pub segment: u8,
    /// The place in the segment.
    pub offset: u16,
    /// The entry's flag byte.
    pub flag: u8,
}

/// One string of the resident or the nonresident names.
#[derive(Clone, Copy, Debug, PartialEq, Eq)]
pub struct Name<'a> {
    /// Its number: the resident names come first, each list's first string
    /// included.
    pub number: u32,
    /// The place of its text.
    pub text_at: u32,
    /// Its text, 1 to 255 bytes.
    pub text: &'a [u8],
    /// The ordinal word behind the text.
    pub ordinal: u16,
}

/// The module that a module reference names.
#[derive(Clone, Copy, Debug, PartialEq, Eq)]
pub struct Module<'a> {
    /// The place of its name.
    pub text_at: u32,
    /// Its name, 1 to 255 bytes.
    pub text: &'a [u8],
}

/// One resource.
#[derive(Clone, Copy, Debug, PartialEq, Eq)]
pub struct Resource<'a> {
    /// The type word of its block.
    pub kind: u16,
    /// Its id word.
    pub id: u16,
    /// Its flag word.
    pub flags: u16,
    /// The place of its data.
    pub data_at: u32,
    /// Its data.
    pub data: &'a [u8],
}
