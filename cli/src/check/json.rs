//! The report for programs: an object for each file.

use super::judge::Scope;
use super::verdict::{Checked, Fault, Outcome, Part, Verdict};
use crate::json::Object;
use crate::read::{Input, LONGEST};
use crate::sha256;
use std::ffi::OsStr;

pub fn object(file: &OsStr, checked: &Checked, scope: Scope) -> Object {
    let object = Object::of_file(file).string("status", word(checked.outcome()));
    match &checked.found {
        Err(error) => object.string("reason", &error.to_string()),
        Ok((input, verdict)) => {
            let object = object.string("checked", scope_word(scope));
            found(of_input(object, input), verdict)
        }
    }
}

/// The size and the hash of a file that was read to its end.
fn of_input(object: Object, input: &Input) -> Object {
    match input.bytes.len() {
        0..=LONGEST => object
            .number("size", input.bytes.len() as u64)
            .string("sha256", &sha256::of(&input.bytes)),
        _ => object,
    }
}

/// The first fault is the file's own, and all that are listed follow.
fn found(object: Object, verdict: &Verdict) -> Object {
    let object = match verdict.faults.first() {
        Some(first) => add_fault(object, first),
        None => object,
    };
    let object = object
        .number("segments", verdict.segments)
        .number("sites", verdict.sites)
        .list("faults", verdict.faults.iter().map(fault_object))
        .number("more_faults", verdict.more);
    match verdict.stopped {
        Some(part) => object.object("stopped", add_part(Object::default(), part)),
        None => object,
    }
}

fn fault_object(fault: &Fault) -> Object {
    add_fault(Object::default(), fault)
}

fn add_fault(object: Object, fault: &Fault) -> Object {
    add_part(object, fault.part).refused(&fault.why)
}

fn add_part(object: Object, part: Part) -> Object {
    let object = object.string("part", part_word(part));
    match part.number() {
        Some(number) => object.number("number", number),
        None => object,
    }
}

fn part_word(part: Part) -> &'static str {
    match part {
        Part::Header => "header",
        Part::Entries => "entries",
        Part::Names => "names",
        Part::Module(_) => "module",
        Part::ResourceTable | Part::Resource(_) => "resource",
        Part::Segment(_) => "segment",
    }
}

fn scope_word(scope: Scope) -> &'static str {
    match scope {
        Scope::All => "all",
        Scope::Segments => "segments",
    }
}

/// In JSON a file that could not be read is `unread`, in one word.
fn word(outcome: Outcome) -> &'static str {
    match outcome {
        Outcome::Unread => "unread",
        other => other.text(),
    }
}
