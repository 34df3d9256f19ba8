//! What can be wrong in a look at a module reference.

/// One thing; everything else is right.
#[derive(Clone, Copy, PartialEq, Eq)]
pub enum Fault {
    None,
    EmptyIsSound,
    TextAtTheLengthByte,
    LengthWithItsByte,
    LengthIsSigned,
    /// The text may leave the image by one byte.
    OneByteMore,
    /// Only the length byte has to be inside.
    TextOutside,
    /// The text may not end with the image.
    OneByteLess,
    PlaceIn16Bits,
    StringFromTheHeader,
    StringFromTheStart,
    /// The number is that of a string among the imported names.
    StringsCounted,
    OtherStringsChecked,
    NameListsChecked,
    /// 16 before 8 where any string is unsound.
    StringsFirst,
    NumberPastTheLast,
}
