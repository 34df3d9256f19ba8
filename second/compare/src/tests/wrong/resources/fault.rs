//! What can be wrong in a look at the resource table.

/// One thing; everything else is right.
#[derive(Clone, Copy, PartialEq, Eq)]
pub enum Fault {
    None,

    // Whether there is a table, and where.
    EqualPlacesRead,
    /// Equal places are looked at before they mean that there are none.
    EqualPlacesOutside,
    ZeroPlaceIsNone,
    PlaceIn16Bits,
    PlaceFromTheStart,
    NamesChecked,

    // The shift.
    Shift16Accepted,
    Shift15Refused,
    ShiftIn8Bits,
    ShiftOfNoResources,
    AlignmentShift,

    // The end of the table.
    NoType0,
    Type0OfABlock,
    /// A table may leave the image by one byte.
    OneByteMore,
    CountIn8Bits,
    ProductIn16Bits,
    /// What is wrong behind the one that is found isn't seen.
    StopsWhenFound,
    FirstBlockAlone,
    /// 8 or 19 before 18.
    NotThereFirst,
    /// What no table can have is refused before 18.
    NeverThereFirst,

    // The data.
    OffsetAlone,
    LengthAlone,
    NeitherShifted,
    PlacesIn16Bits,
    SumIn24Bits,
    EndAtTheEnd,
    EmptyAnywhere,
    EmptyRefused,
    /// 20 before 8 or 19.
    AllData,
    /// The first match whose data is inside.
    InsideFirst,

    // The numbers.
    NumbersByType,
    NumbersIn16Bits,
    HighBitsCounted,
    EmptyBlocksCounted,

    // The words.
    HighBitNotNeeded,
    HighBitOfTheTypeAlone,
    HighBitOfTheIdAlone,
    LowWords,
    HighBitSet,
    IdAlone,
    TypeAlone,
    LastMatch,
    /// Later blocks of the same type aren't looked at.
    FirstOfItsType,
}
