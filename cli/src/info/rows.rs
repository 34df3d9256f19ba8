//! The tables and their rows.

use super::section::{Row, Table};
use crate::describe;
use crate::escape::escaped;
use crate::json::Object;
use crate::words;
use parchgable::{Image, Refusal};

pub const SEGMENTS: Table = Table {
    title: "Segments",
    columns: "     start   stored  allocation  records   flags",
    row: segment,
    of_all: None,
};

pub const NAMES: Table = Table {
    title: "Names",
    columns: "ordinal  name",
    row: name,
    of_all: Some(Refusal::BadNames),
};

pub const MODULES: Table = Table {
    title: "Modules",
    columns: "name",
    row: module,
    of_all: None,
};

pub const RESOURCES: Table = Table {
    title: "Resources",
    columns: "type              id     start    length   flags",
    row: resource,
    of_all: Some(Refusal::BadResourceTable),
};

fn segment(image: Image, number: u32) -> Result<Row, Refusal> {
    let segment = image.segment(number)?;
    Ok(Row {
        text: format!(
            "{:>10}  {:>7}  {:>10}  {:>7}  0x{:04X}  {}",
            segment.start,
            segment.stored.len(),
            segment.allocation,
            segment.records,
            segment.flags,
            words::of_segment(segment.flags).join(", ")
        ),
        object: describe::segment(number, &segment),
    })
}

fn name(image: Image, number: u32) -> Result<Row, Refusal> {
    let name = image.name(number)?;
    Ok(Row {
        text: format!("{:>7}  {}", name.ordinal, escaped(name.text)),
        object: describe::name(&name),
    })
}

fn module(image: Image, number: u32) -> Result<Row, Refusal> {
    let module = image.module(number)?;
    Ok(Row {
        text: escaped(module.text),
        object: describe::module(number, &module),
    })
}

fn resource(image: Image, number: u32) -> Result<Row, Refusal> {
    let resource = image.resource(number)?;
    Ok(Row {
        text: format!(
            "{:<12}  {:>6}  {:>8}  {:>8}  0x{:04X}  {}",
            describe::type_words(image, resource.kind),
            describe::id_words(image, resource.id),
            resource.data_at,
            resource.data.len(),
            resource.flags,
            words::of_resource(resource.flags).join(", ")
        ),
        object: describe::add_resource(
            Object::default().number("resource", number),
            image,
            &resource,
        ),
    })
}
