//! The exported functions of the static library `ne`, made safe to call.
//!
//! All unsafe code is here. The library reads and writes inside the memory that
//! is lent to a call and nowhere else, and keeps no pointer; it takes any bytes
//! and numbers. A pointer to nothing may be anything.

use crate::results::{
    HeaderResult, ModuleResult, NameResult, OrdinalResult, PrepareResult, ResourceResult,
    SegmentResult,
};

extern "C" {
    fn ne_header(image: *const u8, image_len: usize) -> HeaderResult;
    fn ne_segment(image: *const u8, image_len: usize, number: u32) -> SegmentResult;
    fn ne_ordinal(image: *const u8, image_len: usize, number: u32) -> OrdinalResult;
    fn ne_name_by_number(image: *const u8, image_len: usize, number: u32) -> NameResult;
    fn ne_name_by_bytes(
        image: *const u8,
        image_len: usize,
        name: *const u8,
        name_len: usize,
    ) -> NameResult;
    fn ne_module(image: *const u8, image_len: usize, number: u32) -> ModuleResult;
    fn ne_resource_by_number(image: *const u8, image_len: usize, number: u32) -> ResourceResult;
    fn ne_resource_by_words(
        image: *const u8,
        image_len: usize,
        kind: u32,
        id: u32,
    ) -> ResourceResult;
    fn ne_prepare(
        image: *const u8,
        image_len: usize,
        number: u32,
        selectors: *const u16,
        selectors_len: usize,
        answers: *const u32,
        answers_len: usize,
        output: *mut u8,
        output_len: usize,
        marks: *mut u8,
        marks_len: usize,
    ) -> PrepareResult;
    fn ne_step(
        image: *const u8,
        image_len: usize,
        record: *const u8,
        answer: u32,
        selectors: *const u16,
        selectors_len: usize,
        buffer: *mut u8,
        buffer_len: usize,
    );
    fn ne_list(image: *const u8, image_len: usize, text: *mut u8, text_len: usize) -> usize;
}

pub fn header(image: &[u8]) -> HeaderResult {
    // SAFETY: pointer and length are those of one slice, which is lent for the
    // call; the result holds numbers only.
    unsafe { ne_header(image.as_ptr(), image.len()) }
}

pub fn segment(image: &[u8], number: u32) -> SegmentResult {
    // SAFETY: as in `header`.
    unsafe { ne_segment(image.as_ptr(), image.len(), number) }
}

pub fn ordinal(image: &[u8], number: u32) -> OrdinalResult {
    // SAFETY: as in `header`.
    unsafe { ne_ordinal(image.as_ptr(), image.len(), number) }
}

pub fn name_by_number(image: &[u8], number: u32) -> NameResult {
    // SAFETY: as in `header`.
    unsafe { ne_name_by_number(image.as_ptr(), image.len(), number) }
}

pub fn name_by_bytes(image: &[u8], name: &[u8]) -> NameResult {
    // SAFETY: as in `header`, and so for the name.
    unsafe { ne_name_by_bytes(image.as_ptr(), image.len(), name.as_ptr(), name.len()) }
}

pub fn module(image: &[u8], number: u32) -> ModuleResult {
    // SAFETY: as in `header`.
    unsafe { ne_module(image.as_ptr(), image.len(), number) }
}

pub fn resource_by_number(image: &[u8], number: u32) -> ResourceResult {
    // SAFETY: as in `header`.
    unsafe { ne_resource_by_number(image.as_ptr(), image.len(), number) }
}

pub fn resource_by_words(image: &[u8], kind: u32, id: u32) -> ResourceResult {
    // SAFETY: as in `header`.
    unsafe { ne_resource_by_words(image.as_ptr(), image.len(), kind, id) }
}

pub fn prepare(
    image: &[u8],
    number: u32,
    selectors: &[u16],
    answers: &[u32],
    output: &mut [u8],
    marks: &mut [u8],
) -> PrepareResult {
    // SAFETY: as in `header`, for each slice; those that are written are
    // borrowed mutably, so they overlap no other.
    unsafe {
        ne_prepare(
            image.as_ptr(),
            image.len(),
            number,
            selectors.as_ptr(),
            selectors.len(),
            answers.as_ptr(),
            answers.len(),
            output.as_mut_ptr(),
            output.len(),
            marks.as_mut_ptr(),
            marks.len(),
        )
    }
}

pub fn step(image: &[u8], record: &[u8; 8], answer: u32, selectors: &[u16], buffer: &mut [u8]) {
    // SAFETY: as in `prepare`, and the record has the 8 bytes that are read.
    unsafe {
        ne_step(
            image.as_ptr(),
            image.len(),
            record.as_ptr(),
            answer,
            selectors.as_ptr(),
            selectors.len(),
            buffer.as_mut_ptr(),
            buffer.len(),
        );
    }
}

pub fn list(image: &[u8], text: &mut [u8]) -> usize {
    // SAFETY: as in `prepare`.
    unsafe { ne_list(image.as_ptr(), image.len(), text.as_mut_ptr(), text.len()) }
}
