//! Where everything stands in a built image, so that damage can aim.

use std::ops::Range;

/// The map of an image. Every field lies inside the image's bytes.
#[derive(Clone, Debug, Default, PartialEq, Eq)]
pub struct Layout {
    pub header_at: usize,
    pub fields: Vec<Field>,
    pub tables: Vec<Table>,
    /// One for each segment of the table, in order.
    pub segments: Vec<SegmentLayout>,
    pub sites: Vec<Site>,
}

/// A number in the image, little-endian.
#[derive(Clone, Copy, Debug, PartialEq, Eq)]
pub struct Field {
    pub at: usize,
    /// 1, 2 or 4 bytes.
    pub width: u8,
    pub what: FieldKind,
}

/// What a field means. Segments, records, entries, names and resources are
/// counted from 0 here.
#[derive(Clone, Copy, Debug, PartialEq, Eq)]
pub enum FieldKind {
    MzSignature,
    HeaderPlace,
    NeSignature,
    EntryTablePlace,
    EntryTableSize,
    SegmentCount,
    ModuleCount,
    NonresidentSize,
    SegmentTablePlace,
    ResourceTablePlace,
    ResidentPlace,
    ModulesPlace,
    ImportedPlace,
    NonresidentPlace,
    MovableCount,
    AlignmentShift,
    ResourceEntryCount,
    SegmentSector(u16),
    SegmentLength(u16),
    SegmentFlags(u16),
    SegmentAllocation(u16),
    RecordCount(u16),
    RecordType(u16, u16),
    RecordFlags(u16, u16),
    RecordSite(u16, u16),
    TargetSegment(u16, u16),
    TargetReserved(u16, u16),
    TargetFirst(u16, u16),
    TargetLast(u16, u16),
    NextSite(u16, u16),
    BundleCount,
    BundleSegment,
    EntryFlag,
    EntryInterrupt,
    EntrySegment,
    EntryOffset,
    EntryEnd,
    NameLength(NameListKind),
    NameOrdinal(NameListKind),
    NameEnd(NameListKind),
    ModuleReference,
    ImportedLength,
    ResourceShift,
    ResourceType,
    ResourceCount,
    ResourceReserved,
    ResourceOffset,
    ResourceLength,
    ResourceFlags,
    ResourceId,
    ResourceEnd,
}

#[derive(Clone, Copy, Debug, PartialEq, Eq)]
pub enum NameListKind {
    Resident,
    Nonresident,
}

/// The extent of a table: the bytes that were written for it.
#[derive(Clone, Copy, Debug, PartialEq, Eq)]
pub struct Table {
    pub start: usize,
    pub end: usize,
    pub what: TableKind,
}

#[derive(Clone, Copy, Debug, PartialEq, Eq)]
pub enum TableKind {
    MzHeader,
    NeHeader,
    Segments,
    Entries,
    Resident,
    Nonresident,
    Modules,
    Imported,
    Resources,
    Stored(u16),
    Records(u16),
}

/// The extents of a segment; both are empty with sector 0.
#[derive(Clone, Debug, Default, PartialEq, Eq)]
pub struct SegmentLayout {
    pub sector: u16,
    pub stored: Range<usize>,
    /// Count word and records; empty without the flag.
    pub records: Range<usize>,
}

/// One site of one record, as its stored chain gives it.
#[derive(Clone, Copy, Debug, PartialEq, Eq)]
pub struct Site {
    pub segment: u16,
    pub record: u16,
    /// From the segment's start.
    pub offset: u16,
    /// Bytes of its span.
    pub width: u8,
    pub chained: bool,
}

impl Layout {
    /// The first field that `is` holds for.
    pub fn field(&self, is: impl Fn(FieldKind) -> bool) -> Option<Field> {
        self.fields.iter().copied().find(|field| is(field.what))
    }

    /// The first field of exactly this kind.
    pub fn field_of(&self, what: FieldKind) -> Option<Field> {
        self.field(|found| found == what)
    }

    pub fn table_of(&self, what: TableKind) -> Option<Table> {
        self.tables.iter().copied().find(|table| table.what == what)
    }
}

impl Field {
    pub fn end(&self) -> usize {
        self.at + usize::from(self.width)
    }

    /// The greatest number that it holds.
    pub fn greatest(&self) -> u32 {
        u32::MAX >> (32 - 8 * u32::from(self.width))
    }

    /// Its number in `bytes`, which must reach its end.
    pub fn read(&self, bytes: &[u8]) -> u32 {
        let held = &bytes[self.at..self.end()];
        held.iter()
            .rev()
            .fold(0, |value, byte| value << 8 | u32::from(*byte))
    }

    /// Puts the low bytes of `value`; `bytes` must reach its end.
    pub fn write(&self, bytes: &mut [u8], value: u32) {
        let width = usize::from(self.width);
        bytes[self.at..self.at + width].copy_from_slice(&value.to_le_bytes()[..width]);
    }
}
