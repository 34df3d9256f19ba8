//! The exported functions of the static library `ne`, made safe to call.
//!
//! All unsafe code is here.

mod lent;

pub use lent::{Lent, Room};

use crate::results::{
    HeaderResult, ModuleResult, NameResult, OrdinalResult, PrepareResult, ResourceResult,
    SegmentResult,
};

/// An exported function that takes an image and a number.
type ByNumber<T> = unsafe extern "C" fn(*const u8, usize, u32) -> T;

/// One that takes two words beside the image.
type ByWords<T> = unsafe extern "C" fn(*const u8, usize, u32, u32) -> T;

/// One that takes other bytes beside the image.
type ByBytes<T> = unsafe extern "C" fn(*const u8, usize, *const u8, usize) -> T;

extern "C" {
    fn ne_header(image: *const u8, image_length: usize) -> HeaderResult;
    fn ne_segment(image: *const u8, image_length: usize, number: u32) -> SegmentResult;
    fn ne_ordinal(image: *const u8, image_length: usize, number: u32) -> OrdinalResult;
    fn ne_name_by_number(image: *const u8, image_length: usize, number: u32) -> NameResult;
    fn ne_name_by_bytes(
        image: *const u8,
        image_length: usize,
        name: *const u8,
        name_length: usize,
    ) -> NameResult;
    fn ne_module(image: *const u8, image_length: usize, number: u32) -> ModuleResult;
    fn ne_resource_by_number(image: *const u8, image_length: usize, number: u32) -> ResourceResult;
    fn ne_resource_by_words(
        image: *const u8,
        image_length: usize,
        type_word: u32,
        id_word: u32,
    ) -> ResourceResult;
    fn ne_prepare(
        image: *const u8,
        image_length: usize,
        number: u32,
        selectors: *const u16,
        selectors_length: usize,
        answers: *const u32,
        answers_length: usize,
        output: *mut u8,
        output_length: usize,
        marks: *mut u8,
        marks_length: usize,
    ) -> PrepareResult;
    fn ne_step(
        image: *const u8,
        image_length: usize,
        record: *const u8,
        answer: u32,
        selectors: *const u16,
        selectors_length: usize,
        buffer: *mut u8,
        buffer_length: usize,
    );
    fn ne_list(image: *const u8, image_length: usize, text: *mut u8, text_length: usize) -> usize;
}

pub fn header(image: Lent) -> HeaderResult {
    // SAFETY: as in `by_number`.
    unsafe { ne_header(image.pointer(), image.length()) }
}

pub fn segment(image: Lent, number: u32) -> SegmentResult {
    by_number(ne_segment, image, number)
}

pub fn ordinal(image: Lent, number: u32) -> OrdinalResult {
    by_number(ne_ordinal, image, number)
}

pub fn name_by_number(image: Lent, number: u32) -> NameResult {
    by_number(ne_name_by_number, image, number)
}

pub fn name_by_bytes(image: Lent, name: Lent) -> NameResult {
    by_bytes(ne_name_by_bytes, image, name)
}

pub fn module(image: Lent, number: u32) -> ModuleResult {
    by_number(ne_module, image, number)
}

pub fn resource_by_number(image: Lent, number: u32) -> ResourceResult {
    by_number(ne_resource_by_number, image, number)
}

pub fn resource_by_words(image: Lent, type_word: u32, id_word: u32) -> ResourceResult {
    by_words(ne_resource_by_words, image, type_word, id_word)
}

// `function` is one of those above.

fn by_number<T>(function: ByNumber<T>, image: Lent, number: u32) -> T {
    // SAFETY: pointer and length are those of one slice, which is lent for the
    // call, or there are no bytes to be read; the result holds numbers only.
    unsafe { function(image.pointer(), image.length(), number) }
}

fn by_words<T>(function: ByWords<T>, image: Lent, first: u32, second: u32) -> T {
    // SAFETY: as in `by_number`.
    unsafe { function(image.pointer(), image.length(), first, second) }
}

fn by_bytes<T>(function: ByBytes<T>, image: Lent, bytes: Lent) -> T {
    // SAFETY: as in `by_number`, and so for the other bytes.
    unsafe {
        function(
            image.pointer(),
            image.length(),
            bytes.pointer(),
            bytes.length(),
        )
    }
}

pub fn prepare(
    image: Lent,
    number: u32,
    selectors: Lent<u16>,
    answers: Lent<u32>,
    mut output: Room,
    mut marks: Room,
) -> PrepareResult {
    // SAFETY: as in `by_number`, for each slice; those that are written are
    // lent for that and overlap no other.
    unsafe {
        ne_prepare(
            image.pointer(),
            image.length(),
            number,
            selectors.pointer(),
            selectors.length(),
            answers.pointer(),
            answers.length(),
            output.pointer(),
            output.length(),
            marks.pointer(),
            marks.length(),
        )
    }
}

pub fn step(image: Lent, record: &[u8; 8], answer: u32, selectors: Lent<u16>, mut buffer: Room) {
    // SAFETY: as in `prepare`, and the record has the 8 bytes that are read.
    unsafe {
        ne_step(
            image.pointer(),
            image.length(),
            record.as_ptr(),
            answer,
            selectors.pointer(),
            selectors.length(),
            buffer.pointer(),
            buffer.length(),
        );
    }
}

pub fn list(image: Lent, mut text: Room) -> usize {
    // SAFETY: as in `prepare`.
    unsafe {
        ne_list(
            image.pointer(),
            image.length(),
            text.pointer(),
            text.length(),
        )
    }
}
