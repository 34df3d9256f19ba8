//! The results of the library as answers.

use crate::answer::Answer;
use crate::results::{
    HeaderResult, ModuleResult, NameResult, OrdinalResult, PrepareResult, ResourceResult,
    SegmentResult, Values,
};
use reference::{Entry, Module, Name, Resource, Segment, Tables};
use std::fmt::Debug;
use std::mem::offset_of;

/// A result with each of its fields in the place of its number, from 0 on.
fn stands_for<R, T: Values>(result: R, values: T, fields: T::Fields, offsets: &[usize])
where
    Answer<T>: From<R> + Debug,
{
    let expected: Vec<usize> = (0..offsets.len()).map(|field| 4 * field).collect();
    assert_eq!(offsets, expected);
    assert_eq!(size_of::<R>(), 4 * offsets.len());
    assert_eq!(values, T::of(fields));
    assert_eq!(Answer::from(result), Answer::Accepted(values));
}

/// The offsets of a result's fields.
macro_rules! offsets {
    ($result:ident: $($field:ident),+) => {
        &[$(offset_of!($result, $field)),+]
    };
}

#[test]
fn a_headers_fields_keep_their_names() {
    let result = HeaderResult {
        refusal: 0,
        header_at: 1,
        unit: 2,
        segments_at: 3,
        segments: 4,
        modules_at: 5,
        modules: 6,
        entries_at: 7,
        entries_len: 8,
        nonresident_at: 9,
        nonresident_len: 10,
        resident_at: 11,
        imported_at: 12,
        resources_at: 13,
    };
    let tables = Tables {
        header_at: 1,
        unit: 2,
        segments_at: 3,
        segments: 4,
        modules_at: 5,
        modules: 6,
        entries_at: 7,
        entries_len: 8,
        nonresident_at: 9,
        nonresident_len: 10,
        resident_at: 11,
        imported_at: 12,
        resources_at: 13,
    };
    let offsets = offsets!(
        HeaderResult: refusal, header_at, unit, segments_at, segments, modules_at, modules,
        entries_at, entries_len, nonresident_at, nonresident_len, resident_at, imported_at,
        resources_at
    );
    let fields = [1, 2, 3, 4, 5, 6, 7, 8, 9, 10, 11, 12, 13];
    stands_for(result, tables, fields, offsets);
}

#[test]
fn a_segments_fields_keep_their_names() {
    let result = SegmentResult {
        refusal: 0,
        start: 1,
        stored: 2,
        flags: 3,
        allocation: 4,
        records: 5,
    };
    let segment = Segment {
        start: 1,
        stored: 2,
        flags: 3,
        allocation: 4,
        records: 5,
    };
    let offsets = offsets!(SegmentResult: refusal, start, stored, flags, allocation, records);
    stands_for(result, segment, [1, 2, 3, 4, 5], offsets);
}

#[test]
fn an_ordinals_fields_keep_their_names() {
    let result = OrdinalResult {
        refusal: 0,
        segment: 1,
        offset: 2,
        flag: 3,
    };
    let entry = Entry {
        segment: 1,
        offset: 2,
        flag: 3,
    };
    let offsets = offsets!(OrdinalResult: refusal, segment, offset, flag);
    stands_for(result, entry, [1, 2, 3], offsets);
}

#[test]
fn a_names_fields_keep_their_names() {
    let result = NameResult {
        refusal: 0,
        number: 1,
        text_at: 2,
        text_len: 3,
        ordinal: 4,
    };
    let name = Name {
        number: 1,
        text_at: 2,
        text_len: 3,
        ordinal: 4,
    };
    let offsets = offsets!(NameResult: refusal, number, text_at, text_len, ordinal);
    stands_for(result, name, [1, 2, 3, 4], offsets);
}

#[test]
fn a_modules_fields_keep_their_names() {
    let result = ModuleResult {
        refusal: 0,
        text_at: 1,
        text_len: 2,
    };
    let module = Module {
        text_at: 1,
        text_len: 2,
    };
    let offsets = offsets!(ModuleResult: refusal, text_at, text_len);
    stands_for(result, module, [1, 2], offsets);
}

/// What it stands for is in `lent`.
#[test]
fn a_prepared_segments_fields_keep_their_places() {
    let offsets = offsets!(PrepareResult: refusal, record, sites);
    assert_eq!(offsets, &[0, 4, 8]);
    assert_eq!(size_of::<PrepareResult>(), 12);
}

#[test]
fn a_resources_fields_keep_their_names() {
    let result = ResourceResult {
        refusal: 0,
        type_: 1,
        id: 2,
        flags: 3,
        data_at: 4,
        data_len: 5,
    };
    let resource = Resource {
        type_: 1,
        id: 2,
        flags: 3,
        data_at: 4,
        data_len: 5,
    };
    let offsets = offsets!(ResourceResult: refusal, type_, id, flags, data_at, data_len);
    stands_for(result, resource, [1, 2, 3, 4, 5], offsets);
}
