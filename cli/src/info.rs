//! `nemod info`: a file's tables.

mod entries;
mod header;
mod raw;
mod rows;
mod section;

use crate::arguments::Arguments;
use crate::check::{Checked, Judge, Progress, Scope, Work};
use crate::failure::Failure;
use crate::json::Object;
use crate::numbers::count;
use crate::output::Output;
use crate::read::{self, Input};
use crate::status::Status;
use header::Headers;
use parchgable::Image;
use section::Section;

/// Names and resources are asked for one by one, and each question goes over
/// the whole table, which may fill the file. So the bytes that are gone over
/// have a limit, about a second's work, unless all are wanted.
const WORK: usize = 1 << 28;
/// Rows that are shown of any table.
const LEAST_ROWS: usize = 16;

pub fn run(arguments: &Arguments, output: &mut Output) -> Result<Status, Failure> {
    let path = arguments.operand(0);
    let checked = judged(read::needed(path)?, arguments.has("--all"));
    let Ok((input, _)) = &checked.found else {
        return Ok(checked.status());
    };
    let image = Image::new(&input.bytes);
    let headers = Headers::of(image);
    let sections = sections(image, rows(arguments, input));
    match arguments.has("--json") {
        true => {
            let object = checked
                .object(path, Scope::All)
                .object("header", headers.object());
            writeln!(output, "{}", object.object("tables", object_of(&sections)))?;
        }
        false => {
            for line in checked.lines(path, Scope::All) {
                writeln!(output, "{line}")?;
            }
            writeln!(output, "{}\n", count(input.bytes.len(), "byte"))?;
            headers.show(output)?;
            for section in &sections {
                section.show(output)?;
            }
        }
    }
    Ok(checked.status())
}

/// The verdict of `check`, so that the two commands never say different things.
fn judged(input: Input, all: bool) -> Checked {
    let work = match all {
        true => Work::without_limit(),
        false => Work::default(),
    };
    let mut progress = Progress::new(1);
    let verdict = Judge::new(Scope::All, work).image(&input.bytes, &mut progress);
    progress.finish();
    Checked {
        found: Ok((input, verdict)),
    }
}

/// The rows of names and of resources that are shown at most.
fn rows(arguments: &Arguments, input: &Input) -> usize {
    match arguments.has("--all") {
        true => usize::MAX,
        false => LEAST_ROWS.max(WORK / input.bytes.len().max(1)),
    }
}

/// All tables, whatever is refused of them; none where the header is refused.
fn sections(image: Image, rows: usize) -> Vec<Section> {
    if image.header().is_err() {
        return Vec::new();
    }
    vec![
        rows::SEGMENTS.section(image, usize::MAX),
        entries::section(image),
        rows::NAMES.section(image, rows),
        rows::MODULES.section(image, usize::MAX),
        rows::RESOURCES.section(image, rows),
    ]
}

fn object_of(sections: &[Section]) -> Object {
    sections
        .iter()
        .fold(Object::default(), |object, section| section.add_to(object))
}
