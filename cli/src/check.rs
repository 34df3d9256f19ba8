//! `nemod check`: would uploads be accepted?

mod files;
mod json;
mod judge;
mod progress;
mod report;
mod summary;
mod verdict;
mod work;

pub use judge::{Judge, Scope};
pub use progress::Progress;
pub use verdict::Checked;
pub use work::Work;

use crate::arguments::Arguments;
use crate::failure::Failure;
use crate::output::Output;
use crate::read;
use crate::status::Status;
use files::Listed;
use report::Report;
use std::io;
use summary::Summary;

pub fn run(arguments: &Arguments, output: &mut Output) -> Result<Status, Failure> {
    let report = Report::of(arguments);
    let mut judge = Judge::new(Scope::of(arguments), Work::of(arguments)?);
    let files = files::of(arguments)?;
    let mut progress = Progress::new(files.len());
    let mut summary = Summary::default();
    for file in files {
        progress.next_file(&file.name);
        let checked = check(&file, &mut judge, &mut progress);
        if report.tells(&checked) {
            progress.make_room();
            report.write(&file.name, &checked, output)?;
            // A file's lines are there when the next one is read.
            output.flush()?;
        }
        summary.add(checked.outcome());
    }
    progress.finish();
    report.write_summary(&summary, output)?;
    Ok(summary.status())
}

fn check(file: &Listed, judge: &mut Judge, progress: &mut Progress) -> Checked {
    let input = match &file.unread {
        Some(error) => Err(io::Error::new(error.kind(), error.to_string())),
        None => read::file(&file.name),
    };
    let found = input.map(|input| {
        let verdict = judge.image(&input.bytes, progress);
        (input, verdict)
    });
    Checked { found }
}
