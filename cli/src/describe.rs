//! An answer in words and as a JSON object.

use crate::escape::escaped;
use crate::json::Object;
use crate::words;
use parchgable::{Entry, Image, Module, Name, Resource, Segment};

pub fn segment(number: u32, segment: &Segment) -> Object {
    Object::default()
        .number("segment", number)
        .number("start", segment.start)
        .number("stored", segment.stored.len() as u64)
        .number("allocation", segment.allocation)
        .number("flags", segment.flags)
        .strings("flag_words", &words::of_segment(segment.flags))
        .number("records", segment.records)
}

pub fn entry(ordinal: u32, entry: &Entry) -> Object {
    Object::default()
        .number("ordinal", ordinal)
        .number("segment", entry.segment)
        .number("offset", entry.offset)
        .number("flag", entry.flag)
}

pub fn name(name: &Name) -> Object {
    Object::default()
        .number("name", name.number)
        .bytes("string", name.text)
        .number("ordinal", name.ordinal)
        .number("text_at", name.text_at)
}

pub fn module(number: u32, module: &Module) -> Object {
    Object::default()
        .number("module", number)
        .bytes("string", module.text)
        .number("text_at", module.text_at)
}

/// Adds what a resource is, since only who asked by its number knows that.
pub fn add_resource(object: Object, image: Image, resource: &Resource) -> Object {
    object
        .number("type", resource.kind)
        .string("type_word", &type_words(image, resource.kind))
        .number("id", resource.id)
        .string("id_word", &id_words(image, resource.id))
        .number("flags", resource.flags)
        .strings("flag_words", &words::of_resource(resource.flags))
        .number("data_at", resource.data_at)
        .number("data_len", resource.data.len() as u64)
}

/// A type's name, or its number, or the name that the table says.
pub fn type_words(image: Image, word: u16) -> String {
    match words::of_type(word) {
        Some(name) => name.to_string(),
        None => id_words(image, word),
    }
}

/// An id's number, or in quotes the name that the table says.
pub fn id_words(image: Image, word: u16) -> String {
    match (words::number_of(word), named(image, word)) {
        (Some(number), _) => number.to_string(),
        (None, Some(name)) => format!("\"{}\"", escaped(name)),
        (None, None) => format!("0x{word:04X}"),
    }
}

/// The name at this place of the resource table, if it lies in the file. No rule
/// of document 01 looks at it, so it is shown and not checked.
fn named(image: Image<'_>, word: u16) -> Option<&[u8]> {
    let at = image.header().ok()?.resources_at as usize + usize::from(word);
    let length = usize::from(*image.bytes().get(at)?);
    image.bytes().get(at + 1..at + 1 + length)
}
