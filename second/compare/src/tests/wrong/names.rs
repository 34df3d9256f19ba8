//! Name queries that are wrong in one respect.

mod fault;
mod lists;
mod matches;

use super::exchanged;
use crate::calls::{Function, NameByBytes, NameByNumber, Text};
use crate::results::NameResult;
use fault::Fault;
use lists::look_up;
use matches::Asked;

/// The right one by number, for the others to spoil.
pub fn right_number(image: &[u8], number: &u32) -> NameResult {
    reference::name_by_number(image, *number).into()
}

/// The right one by bytes.
pub fn right_bytes(image: &[u8], name: &Text) -> NameResult {
    reference::name_by_bytes(image, name.bytes()).into()
}

/// Right too, and the ones that faults are put in.
pub fn looked_up_number(image: &[u8], number: &u32) -> NameResult {
    look_up(image, Asked::Number(*number), Fault::None).into()
}

pub fn looked_up_bytes(image: &[u8], name: &Text) -> NameResult {
    look_up(image, Asked::Text(name.bytes()), Fault::None).into()
}

pub fn refused(refusal: u32) -> NameResult {
    Err(refusal).into()
}

/// The ordinal is one less in a rare name.
pub fn rare_ordinal(image: &[u8], number: &u32) -> NameResult {
    let mut result = right_number(image, number);
    if result.number == 4 && result.text_len == 5 && result.ordinal > 9 {
        result.ordinal -= 1;
    }
    result
}

/// A rare name isn't found.
pub fn rare_miss(image: &[u8], name: &Text) -> NameResult {
    match right_bytes(image, name) {
        NameResult {
            number: 3,
            text_len: 7,
            ..
        } => refused(17),
        result => result,
    }
}

/// This refusal leaves a value behind.
fn unclean(mut result: NameResult, refusal: u32) -> NameResult {
    if result.refusal == refusal {
        result.text_len = 1;
    }
    result
}

/// Length and ordinal change places.
fn other_fields(result: NameResult) -> NameResult {
    NameResult {
        text_len: result.ordinal,
        ordinal: result.text_len,
        ..result
    }
}

pub type ByNumber = fn(&[u8], &u32) -> NameResult;
pub type ByBytes = fn(&[u8], &Text) -> NameResult;

/// The query by number that has this fault.
macro_rules! number {
    ($fault:ident) => {
        (stringify!($fault), |image, number| {
            look_up(image, Asked::Number(*number), Fault::$fault).into()
        })
    };
}

/// The query by bytes that has this fault.
macro_rules! bytes {
    ($fault:ident) => {
        (stringify!($fault), |image, name| {
            look_up(image, Asked::Text(name.bytes()), Fault::$fault).into()
        })
    };
}

pub const WRONG_BY_NUMBER: [(&str, ByNumber); 32] = [
    ("8 and 16", |image, number| {
        exchanged(reference::name_by_number(image, *number), 8, 16).into()
    }),
    ("unclean 8", |image, number| {
        unclean(right_number(image, number), 8)
    }),
    ("unclean 16", |image, number| {
        unclean(right_number(image, number), 16)
    }),
    ("other fields", |image, number| {
        other_fields(right_number(image, number))
    }),
    ("low word", |image, number| {
        right_number(image, &(number & 0xFFFF))
    }),
    ("from 0", |image, number| {
        right_number(image, &number.wrapping_add(1))
    }),
    ("refusing", |_, _| refused(1)),
    number!(ResidentPlaceIn16Bits),
    number!(ResidentFromTheStart),
    number!(NonresidentFromTheHeader),
    number!(ImageIsTheLimit),
    number!(SizeIsIgnored),
    number!(OneByteMore),
    number!(NoEndByte),
    number!(EmptyListUnsound),
    number!(OutsideIsEmpty),
    number!(LengthIsSigned),
    number!(BytesBehindTheEnd),
    number!(ResidentUnchecked),
    number!(NonresidentUnchecked),
    number!(FoundIsEnough),
    number!(NotThereFirst),
    number!(NeverThereFirst),
    number!(EntryTableWalked),
    number!(NonresidentFirst),
    number!(NumbersStartAgain),
    number!(FirstStringsUncounted),
    number!(NumbersIn16Bits),
    number!(TextAtTheLengthByte),
    number!(LengthWithItsByte),
    number!(OrdinalBigEndian),
    number!(OrdinalOf8Bits),
];

pub const WRONG_BY_BYTES: [(&str, ByBytes); 43] = [
    ("16 and 17", |image, name| {
        exchanged(reference::name_by_bytes(image, name.bytes()), 16, 17).into()
    }),
    ("8 for 17", |image, name| {
        exchanged(reference::name_by_bytes(image, name.bytes()), 8, 17).into()
    }),
    ("unclean 17", |image, name| {
        unclean(right_bytes(image, name), 17)
    }),
    ("other fields", |image, name| {
        other_fields(right_bytes(image, name))
    }),
    ("refusing", |_, _| refused(1)),
    bytes!(ResidentPlaceIn16Bits),
    bytes!(ResidentFromTheStart),
    bytes!(NonresidentFromTheHeader),
    bytes!(ImageIsTheLimit),
    bytes!(SizeIsIgnored),
    bytes!(OneByteMore),
    bytes!(NoEndByte),
    bytes!(EmptyListUnsound),
    bytes!(OutsideIsEmpty),
    bytes!(LengthIsSigned),
    bytes!(BytesBehindTheEnd),
    bytes!(ResidentUnchecked),
    bytes!(NonresidentUnchecked),
    bytes!(FoundIsEnough),
    bytes!(NotThereFirst),
    bytes!(NeverThereFirst),
    bytes!(EntryTableWalked),
    bytes!(NonresidentFirst),
    bytes!(NumbersStartAgain),
    bytes!(FirstStringsUncounted),
    bytes!(NumbersIn16Bits),
    bytes!(TextAtTheLengthByte),
    bytes!(LengthWithItsByte),
    bytes!(OrdinalBigEndian),
    bytes!(OrdinalOf8Bits),
    bytes!(FirstStringsFound),
    bytes!(ResidentFirstFound),
    bytes!(NonresidentFirstFound),
    bytes!(OneSkippedInAll),
    bytes!(TwoSkipped),
    bytes!(LastMatch),
    bytes!(CaseFolded),
    bytes!(PrefixFound),
    bytes!(LongerFound),
    bytes!(LengthIn8Bits),
    bytes!(HighBitIgnored),
    bytes!(ZeroEndsTheText),
    bytes!(LastByteIgnored),
];

pub fn by_number(answer: ByNumber) -> Function<NameByNumber> {
    Function { answer }
}

pub fn by_bytes(answer: ByBytes) -> Function<NameByBytes> {
    Function { answer }
}
