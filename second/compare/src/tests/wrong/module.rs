//! Module queries that are wrong in one respect.

mod fault;
mod string;

use super::exchanged;
use crate::calls::{Function, ModuleQuery};
use crate::results::ModuleResult;
use fault::Fault;
use string::look_up;

/// The right one, for the others to spoil.
pub fn right(image: &[u8], number: &u32) -> ModuleResult {
    reference::module(image, *number).into()
}

/// Right too, and the one that faults are put in.
pub fn looked_up(image: &[u8], number: &u32) -> ModuleResult {
    look_up(image, *number, Fault::None).into()
}

pub fn refused(refusal: u32) -> ModuleResult {
    Err(refusal).into()
}

/// The length is one more in a rare module.
pub fn rare_length(image: &[u8], number: &u32) -> ModuleResult {
    let mut result = right(image, number);
    if *number == 3 && result.text_len == 4 && result.text_at % 4 == 1 {
        result.text_len += 1;
    }
    result
}

/// Refusal 16 leaves a value behind.
fn unclean(image: &[u8], number: &u32) -> ModuleResult {
    let mut result = right(image, number);
    if result.refusal == 16 {
        result.text_len = 1;
    }
    result
}

/// Place and length change places.
fn other_fields(image: &[u8], number: &u32) -> ModuleResult {
    let result = right(image, number);
    ModuleResult {
        text_at: result.text_len,
        text_len: result.text_at,
        ..result
    }
}

type Query = fn(&[u8], &u32) -> ModuleResult;

/// The query that has this fault.
macro_rules! faulty {
    ($fault:ident) => {
        (stringify!($fault), |image, number| {
            look_up(image, *number, Fault::$fault).into()
        })
    };
}

pub const WRONG: [(&str, Query); 21] = [
    ("8 and 16", |image, number| {
        exchanged(reference::module(image, *number), 8, 16).into()
    }),
    ("unclean", unclean),
    ("other fields", other_fields),
    ("low word", |image, number| right(image, &(number & 0xFFFF))),
    ("from 0", |image, number| {
        right(image, &number.wrapping_add(1))
    }),
    ("refusing", |_, _| refused(1)),
    faulty!(EmptyIsSound),
    faulty!(TextAtTheLengthByte),
    faulty!(LengthWithItsByte),
    faulty!(LengthIsSigned),
    faulty!(OneByteMore),
    faulty!(TextOutside),
    faulty!(OneByteLess),
    faulty!(PlaceIn16Bits),
    faulty!(StringFromTheHeader),
    faulty!(StringFromTheStart),
    faulty!(StringsCounted),
    faulty!(OtherStringsChecked),
    faulty!(NameListsChecked),
    faulty!(StringsFirst),
    faulty!(NumberPastTheLast),
];

pub fn call(answer: Query) -> Function<ModuleQuery> {
    Function { answer }
}
