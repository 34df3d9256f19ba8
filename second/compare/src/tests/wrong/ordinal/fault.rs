//! What can be wrong in a walk of the entry table.

/// One thing; everything else is right.
#[derive(Clone, Copy, PartialEq, Eq)]
pub enum Fault {
    None,
    /// Null bundles use no ordinals up.
    NullsUseNone,
    /// They don't count toward 14.
    NullsDontCount,
    CountBeforeSegmentByte,
    CountAfterEntryBytes,
    CountAfterSegments,
    OneMoreOrdinal,
    OneLessOrdinal,
    /// Ordinals are counted in 16 bits.
    CountWraps,
    NoInterrupt,
    /// Only this byte of CDh 3Fh is tested.
    FirstInterruptByte,
    SecondInterruptByte,
    InterruptInFixed,
    MovableSegment0,
    SegmentPastTheLast,
    NoSegment255,
    SegmentCountInAByte,
    /// 13 before the bytes of later entries.
    EntryByEntry,
    /// Only a bundle's first entry is tested.
    FirstEntryOnly,
    ImageIsTheLimit,
    /// A table may do without.
    NoEndByte,
    /// A count of 0 ends nothing while there are more bytes.
    BytesBehindTheEnd,
    /// What is wrong behind the ordinal isn't seen.
    StopsAtTheOrdinal,
}

/// Where a bundle's ordinals are counted toward 14.
#[derive(Clone, Copy, PartialEq, Eq)]
pub enum Stage {
    BeforeSegmentByte,
    /// The right one.
    BeforeEntryBytes,
    AfterEntryBytes,
    AfterSegments,
}

impl Fault {
    pub fn stage(self) -> Stage {
        match self {
            Fault::CountBeforeSegmentByte => Stage::BeforeSegmentByte,
            Fault::CountAfterEntryBytes => Stage::AfterEntryBytes,
            Fault::CountAfterSegments => Stage::AfterSegments,
            _ => Stage::BeforeEntryBytes,
        }
    }

    /// The greatest count of ordinals.
    pub fn most(self) -> u32 {
        match self {
            Fault::OneMoreOrdinal => 65_536,
            Fault::OneLessOrdinal => 65_534,
            Fault::CountWraps => u32::MAX,
            _ => 65_535,
        }
    }
}
