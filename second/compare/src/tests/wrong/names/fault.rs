//! What can be wrong in a look at the name lists.

/// One thing; everything else is right.
#[derive(Clone, Copy, PartialEq, Eq)]
pub enum Fault {
    None,

    // Where the lists stand, and how far they go.
    ResidentPlaceIn16Bits,
    ResidentFromTheStart,
    NonresidentFromTheHeader,
    /// The byte count of the nonresident list isn't its limit.
    ImageIsTheLimit,
    /// Size 0 doesn't mean that there are none.
    SizeIsIgnored,
    /// A list may leave its limit by one byte.
    OneByteMore,

    // What a list needs.
    NoEndByte,
    EmptyListUnsound,
    /// A resident list at or past the image's end is empty.
    OutsideIsEmpty,
    /// A length byte from 80h on ends the list.
    LengthIsSigned,
    /// An end byte ends nothing while the byte count has more.
    BytesBehindTheEnd,

    // What is checked, and when.
    ResidentUnchecked,
    NonresidentUnchecked,
    /// A match in the resident list is given before the other list is checked.
    FoundIsEnough,
    /// 8 or 17 before 16.
    NotThereFirst,
    /// What no list can have is refused before 16.
    NeverThereFirst,
    EntryTableWalked,

    // The numbers.
    NonresidentFirst,
    NumbersStartAgain,
    FirstStringsUncounted,
    NumbersIn16Bits,

    // The values.
    TextAtTheLengthByte,
    LengthWithItsByte,
    OrdinalBigEndian,
    OrdinalOf8Bits,

    // The comparison.
    FirstStringsFound,
    ResidentFirstFound,
    NonresidentFirstFound,
    /// Only the first string of all is skipped.
    OneSkippedInAll,
    TwoSkipped,
    LastMatch,
    CaseFolded,
    PrefixFound,
    LongerFound,
    LengthIn8Bits,
    HighBitIgnored,
    ZeroEndsTheText,
    LastByteIgnored,
}
