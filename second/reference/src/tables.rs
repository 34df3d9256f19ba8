//! The header query: where the tables stand.

use crate::header::header;

/// The places and sizes of an accepted header. Document 01: places are from the
/// file's start. A table of size 0 has the place that the header says too.
#[derive(Debug, Clone, Copy, PartialEq, Eq)]
pub struct Tables {
    /// Place of the NE header.
    pub header_at: u32,
    /// Bytes of a sector: 2^shift.
    pub unit: u32,
    /// Place of the segment table.
    pub segments_at: u32,
    /// Segment count.
    pub segments: u32,
    /// Place of the module references.
    pub modules_at: u32,
    /// Module count.
    pub modules: u32,
    /// Place of the entry table.
    pub entries_at: u32,
    /// Its bytes.
    pub entries_len: u32,
    /// Place of the nonresident names.
    pub nonresident_at: u32,
    /// Their bytes.
    pub nonresident_len: u32,
    /// Place of the resident names.
    pub resident_at: u32,
    /// Place of the imported names.
    pub imported_at: u32,
    /// Place of the resource table.
    pub resources_at: u32,
}

/// The header query: 1 to 7, and nothing else.
pub fn tables(image: &[u8]) -> Result<Tables, u32> {
    let header = header(image)?;
    // A place is at most 16,777,152 and a word, or a dword of the header.
    let number = |value: u64| u32::try_from(value).expect("32 bits");
    Ok(Tables {
        header_at: number(header.header_at),
        unit: 1 << header.shift,
        segments_at: number(header.segment_at),
        segments: number(header.segment_count),
        modules_at: number(header.module_at),
        modules: number(header.module_count),
        entries_at: number(header.entry_at),
        entries_len: number(header.entry_bytes),
        nonresident_at: number(header.nonresident_at),
        nonresident_len: number(header.nonresident_bytes),
        resident_at: number(header.resident_at),
        imported_at: number(header.imported_at),
        resources_at: number(header.resource_at),
    })
}
