//! The queries: one question, one line or one object.

use crate::arguments::Arguments;
use crate::delivery::Delivery;
use crate::describe;
use crate::escape::escaped;
use crate::failure::Failure;
use crate::json::Object;
use crate::numbers::{count, shown};
use crate::output::Output;
use crate::read;
use crate::status::Status;
use crate::words;
use parchgable::{Image, Name, Refusal, Refused, Resource};
use std::ffi::OsStr;
use std::os::unix::ffi::OsStrExt;

/// What a question is answered with.
struct Answer<'a> {
    line: String,
    object: Object,
    /// The bytes that can be written to a file.
    bytes: &'a [u8],
}

type Answered<'a> = Result<Answer<'a>, Refusal>;

pub fn segment(arguments: &Arguments, output: &mut Output) -> Result<Status, Failure> {
    let number = arguments.number(arguments.operand(1))?;
    answer(arguments, output, |image| {
        let segment = image.segment(number)?;
        let line = format!(
            "segment {number}: {} at {}, allocation {}, flags 0x{:04X} ({}), {}",
            count(segment.stored.len(), "stored byte"),
            segment.start,
            segment.allocation,
            segment.flags,
            words::of_segment(segment.flags).join(", "),
            count(segment.records, "fixup record"),
        );
        Ok(Answer {
            line,
            object: describe::segment(number, &segment),
            bytes: segment.stored,
        })
    })
}

pub fn ordinal(arguments: &Arguments, output: &mut Output) -> Result<Status, Failure> {
    let number = arguments.number(arguments.operand(1))?;
    answer(arguments, output, |image| {
        let entry = image.ordinal(number)?;
        let line = format!(
            "ordinal {number}: segment {}, offset 0x{:04X}, flag 0x{:02X}",
            entry.segment, entry.offset, entry.flag
        );
        Ok(Answer {
            line,
            object: describe::entry(number, &entry),
            bytes: &[],
        })
    })
}

pub fn name(arguments: &Arguments, output: &mut Output) -> Result<Status, Failure> {
    match (arguments.value("--number"), arguments.operands().get(1)) {
        (Some(number), None) => {
            let number = arguments.number(number)?;
            answer(arguments, output, |image| image.name(number).map(of_name))
        }
        (None, Some(text)) => {
            let text = text.as_bytes();
            answer(arguments, output, |image| {
                image.find_name(text).map(of_name)
            })
        }
        _ => Err(arguments.wrong("give either NAME or --number")),
    }
}

fn of_name(name: Name) -> Answer {
    let text = escaped(name.text);
    Answer {
        line: format!(
            "name {}: {text}, ordinal {}, text at {}",
            name.number, name.ordinal, name.text_at
        ),
        object: describe::name(&name),
        bytes: &[],
    }
}

pub fn module(arguments: &Arguments, output: &mut Output) -> Result<Status, Failure> {
    let number = arguments.number(arguments.operand(1))?;
    answer(arguments, output, |image| {
        let module = image.module(number)?;
        let text = escaped(module.text);
        Ok(Answer {
            line: format!("module {number}: {text}, text at {}", module.text_at),
            object: describe::module(number, &module),
            bytes: &[],
        })
    })
}

pub fn resource(arguments: &Arguments, output: &mut Output) -> Result<Status, Failure> {
    let first = arguments.operand(1);
    match arguments.operands().get(2) {
        Some(id) => {
            let (kind, id) = (
                type_word(arguments, first)?,
                words::word_of(arguments.number(id)?),
            );
            answer(arguments, output, |image| {
                let found = image.find_resource(kind, id)?;
                Ok(of_resource(image, found))
            })
        }
        None if named_type(first).is_some() => Err(arguments.missing("ID")),
        None => {
            let number = arguments.number(first)?;
            answer(arguments, output, |image| {
                let found = image.resource(number)?;
                Ok(of_resource(image, found))
            })
        }
    }
}

/// A type that is given by its name or by a number.
fn type_word(arguments: &Arguments, text: &OsStr) -> Result<u32, Failure> {
    if let Some(word) = named_type(text) {
        return Ok(word);
    }
    let unknown = |_| {
        let text = shown(text.as_bytes());
        arguments.wrong(format_args!(
            "'{text}' is no type's name and not a number of 32 bits"
        ))
    };
    arguments.number(text).map(words::word_of).map_err(unknown)
}

fn named_type(text: &OsStr) -> Option<u32> {
    words::type_named(text.to_str()?)
}

fn of_resource<'a>(image: Image, resource: Resource<'a>) -> Answer<'a> {
    let line = format!(
        "resource {} {} (type 0x{:04X}, id 0x{:04X}): {} at {}, flags 0x{:04X} ({})",
        describe::type_words(image, resource.kind),
        describe::id_words(image, resource.id),
        resource.kind,
        resource.id,
        count(resource.data.len(), "byte"),
        resource.data_at,
        resource.flags,
        words::of_resource(resource.flags).join(", "),
    );
    Answer {
        line,
        object: describe::add_resource(Object::default(), image, &resource),
        bytes: resource.data,
    }
}

/// Asks the file that is named first, writes the answer's line or object, and
/// delivers its bytes where they are wanted.
fn answer(
    arguments: &Arguments,
    output: &mut Output,
    ask: impl for<'a> Fn(Image<'a>) -> Answered<'a>,
) -> Result<Status, Failure> {
    let delivery = Delivery::of(arguments);
    let json = arguments.has("--json");
    if json && delivery.is_output() {
        return Err(arguments.wrong("--json and --output - both write to standard output"));
    }
    let file = read::needed(arguments.operand(0))?;
    delivery.spares(&file)?;
    match ask(Image::new(&file.bytes)) {
        Ok(answer) => {
            delivery.deliver(answer.bytes, output, |output| match json {
                true => writeln!(output, "{}", answer.object),
                false => writeln!(output, "{}", answer.line),
            })?;
            Ok(Status::Accepted)
        }
        Err(refusal) => {
            match json {
                true => writeln!(
                    output,
                    "{}",
                    Object::default().refused(&Refused::from(refusal))
                )?,
                false => delivery.tell(refusal.into(), output)?,
            }
            Ok(Status::Refused)
        }
    }
}
