//! Resource queries that are wrong in one respect.

mod fault;
mod found;
mod table;

use super::exchanged;
use crate::calls::{Function, ResourceByNumber, ResourceByWords, Words};
use crate::results::ResourceResult;
use fault::Fault;
use found::Asked;
use table::look_up;

/// The right one by number, for the others to spoil.
pub fn right_number(image: &[u8], number: &u32) -> ResourceResult {
    reference::resource_by_number(image, *number).into()
}

/// The right one by words.
pub fn right_words(image: &[u8], (type_word, id): &Words) -> ResourceResult {
    reference::resource_by_words(image, *type_word, *id).into()
}

/// Right too, and the ones that faults are put in.
pub fn looked_up_number(image: &[u8], number: &u32) -> ResourceResult {
    look_up(image, Asked::Number(*number), Fault::None).into()
}

pub fn looked_up_words(image: &[u8], words: &Words) -> ResourceResult {
    look_up(image, Asked::Words(*words), Fault::None).into()
}

pub fn refused(refusal: u32) -> ResourceResult {
    Err(refusal).into()
}

/// The flags are one more in a rare resource.
pub fn rare_flags(image: &[u8], number: &u32) -> ResourceResult {
    let mut result = right_number(image, number);
    if *number == 3 && result.data_len > 0 && result.flags == 2 {
        result.flags += 1;
    }
    result
}

/// A rare resource isn't found.
pub fn rare_miss(image: &[u8], words: &Words) -> ResourceResult {
    match right_words(image, words) {
        ResourceResult {
            type_: 0x8003,
            id: 0x8002,
            flags: 0xFFFF,
            ..
        } => refused(19),
        result => result,
    }
}

/// This refusal leaves a value behind.
fn unclean(mut result: ResourceResult, refusal: u32) -> ResourceResult {
    if result.refusal == refusal {
        result.data_len = 1;
    }
    result
}

/// Id and flags change places.
fn other_fields(result: ResourceResult) -> ResourceResult {
    ResourceResult {
        id: result.flags,
        flags: result.id,
        ..result
    }
}

pub type ByNumber = fn(&[u8], &u32) -> ResourceResult;
pub type ByWords = fn(&[u8], &Words) -> ResourceResult;

/// The query by number that has this fault.
macro_rules! number {
    ($fault:ident) => {
        (stringify!($fault), |image, number| {
            look_up(image, Asked::Number(*number), Fault::$fault).into()
        })
    };
}

/// The query by words that has this fault.
macro_rules! words {
    ($fault:ident) => {
        (stringify!($fault), |image, words| {
            look_up(image, Asked::Words(*words), Fault::$fault).into()
        })
    };
}

pub const WRONG_BY_NUMBER: [(&str, ByNumber); 41] = [
    ("8 and 18", |image, number| {
        exchanged(reference::resource_by_number(image, *number), 8, 18).into()
    }),
    ("18 and 20", |image, number| {
        exchanged(reference::resource_by_number(image, *number), 18, 20).into()
    }),
    ("unclean 8", |image, number| {
        unclean(right_number(image, number), 8)
    }),
    ("unclean 20", |image, number| {
        unclean(right_number(image, number), 20)
    }),
    ("other fields", |image, number| {
        other_fields(right_number(image, number))
    }),
    ("low word", |image, number| {
        right_number(image, &(number & 0xFFFF))
    }),
    ("from 0", |image, number| {
        right_number(image, &number.wrapping_add(1))
    }),
    ("refusing", |_, _| refused(1)),
    number!(EqualPlacesRead),
    number!(EqualPlacesOutside),
    number!(ZeroPlaceIsNone),
    number!(PlaceIn16Bits),
    number!(PlaceFromTheStart),
    number!(NamesChecked),
    number!(Shift16Accepted),
    number!(Shift15Refused),
    number!(ShiftIn8Bits),
    number!(ShiftOfNoResources),
    number!(AlignmentShift),
    number!(NoType0),
    number!(Type0OfABlock),
    number!(OneByteMore),
    number!(CountIn8Bits),
    number!(ProductIn16Bits),
    number!(StopsWhenFound),
    number!(FirstBlockAlone),
    number!(NotThereFirst),
    number!(NeverThereFirst),
    number!(OffsetAlone),
    number!(LengthAlone),
    number!(NeitherShifted),
    number!(PlacesIn16Bits),
    number!(SumIn24Bits),
    number!(EndAtTheEnd),
    number!(EmptyAnywhere),
    number!(EmptyRefused),
    number!(AllData),
    number!(NumbersByType),
    number!(NumbersIn16Bits),
    number!(HighBitsCounted),
    number!(EmptyBlocksCounted),
];

pub const WRONG_BY_WORDS: [(&str, ByWords); 47] = [
    ("18 and 19", |image, words| {
        exchanged(
            reference::resource_by_words(image, words.0, words.1),
            18,
            19,
        )
        .into()
    }),
    ("19 and 20", |image, words| {
        exchanged(
            reference::resource_by_words(image, words.0, words.1),
            19,
            20,
        )
        .into()
    }),
    ("8 for 19", |image, words| {
        exchanged(reference::resource_by_words(image, words.0, words.1), 8, 19).into()
    }),
    ("unclean 19", |image, words| {
        unclean(right_words(image, words), 19)
    }),
    ("unclean 20", |image, words| {
        unclean(right_words(image, words), 20)
    }),
    ("other fields", |image, words| {
        other_fields(right_words(image, words))
    }),
    ("exchanged words", |image, (type_word, id)| {
        right_words(image, &(*id, *type_word))
    }),
    ("refusing", |_, _| refused(1)),
    words!(EqualPlacesRead),
    words!(EqualPlacesOutside),
    words!(ZeroPlaceIsNone),
    words!(PlaceIn16Bits),
    words!(PlaceFromTheStart),
    words!(NamesChecked),
    words!(Shift16Accepted),
    words!(Shift15Refused),
    words!(ShiftIn8Bits),
    words!(ShiftOfNoResources),
    words!(AlignmentShift),
    words!(NoType0),
    words!(Type0OfABlock),
    words!(OneByteMore),
    words!(CountIn8Bits),
    words!(ProductIn16Bits),
    words!(StopsWhenFound),
    words!(FirstBlockAlone),
    words!(NotThereFirst),
    words!(NeverThereFirst),
    words!(OffsetAlone),
    words!(LengthAlone),
    words!(NeitherShifted),
    words!(PlacesIn16Bits),
    words!(SumIn24Bits),
    words!(EndAtTheEnd),
    words!(EmptyAnywhere),
    words!(EmptyRefused),
    words!(AllData),
    words!(InsideFirst),
    words!(HighBitNotNeeded),
    words!(HighBitOfTheTypeAlone),
    words!(HighBitOfTheIdAlone),
    words!(LowWords),
    words!(HighBitSet),
    words!(IdAlone),
    words!(TypeAlone),
    words!(LastMatch),
    words!(FirstOfItsType),
];

pub fn by_number(answer: ByNumber) -> Function<ResourceByNumber> {
    Function { answer }
}

pub fn by_words(answer: ByWords) -> Function<ResourceByWords> {
    Function { answer }
}
