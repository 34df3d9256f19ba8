//! The report on each file and the summary.

use super::json;
use super::judge::Scope;
use super::summary::Summary;
use super::verdict::{Checked, Fault, Outcome, Part, Verdict};
use crate::arguments::Arguments;
use crate::colour::{self, Colour};
use crate::escape::escaped;
use crate::failure::Failure;
use crate::numbers::count;
use crate::output::Output;
use std::ffi::OsStr;
use std::os::unix::ffi::OsStrExt;

pub struct Report {
    form: Form,
    scope: Scope,
    /// Are accepted files left out?
    refused_only: bool,
}

enum Form {
    Lines,
    Json,
    /// The exit status alone.
    Quiet,
}

impl Report {
    pub fn of(arguments: &Arguments) -> Report {
        let form = match (arguments.has("--quiet"), arguments.has("--json")) {
            (true, _) => Form::Quiet,
            (false, true) => Form::Json,
            (false, false) => Form::Lines,
        };
        Report {
            form,
            scope: Scope::of(arguments),
            refused_only: arguments.has("--refused"),
        }
    }

    /// Is there something to say of a file? That it could not be read is always said.
    pub fn tells(&self, checked: &Checked) -> bool {
        match checked.outcome() {
            Outcome::Unread => true,
            Outcome::Accepted if self.refused_only => false,
            _ => !matches!(self.form, Form::Quiet),
        }
    }

    /// Writes it. That a file could not be read is said on standard error too.
    pub fn write(
        &self,
        file: &OsStr,
        checked: &Checked,
        output: &mut Output,
    ) -> Result<(), Failure> {
        if let Err(error) = &checked.found {
            Failure::of_file(file, error).report();
        }
        match self.form {
            Form::Quiet => {}
            Form::Json => writeln!(output, "{}", checked.object(file, self.scope))?,
            Form::Lines => {
                for line in checked.lines(file, self.scope) {
                    writeln!(output, "{line}")?;
                }
            }
        }
        Ok(())
    }

    pub fn write_summary(&self, summary: &Summary, output: &mut Output) -> Result<(), Failure> {
        match self.form {
            Form::Lines => writeln!(output, "{summary}"),
            Form::Json | Form::Quiet => Ok(()),
        }
    }
}

impl Checked {
    pub fn object(&self, file: &OsStr, scope: Scope) -> crate::json::Object {
        json::object(file, self, scope)
    }

    /// A line with the file's verdict, then what is wrong with its parts.
    pub fn lines(&self, file: &OsStr, scope: Scope) -> Vec<String> {
        let name = escaped(file.as_bytes());
        match &self.found {
            Err(error) => {
                let unread = painted(Outcome::Unread, Outcome::Unread.text());
                vec![format!("{name}: {unread}: {error}")]
            }
            Ok((_, verdict)) => {
                let first = format!("{name}: {}", verdict.line(scope));
                let below = verdict.below().into_iter();
                [first]
                    .into_iter()
                    .chain(below.map(|line| format!("  {line}")))
                    .collect()
            }
        }
    }
}

impl Verdict {
    fn line(&self, scope: Scope) -> String {
        let outcome = self.outcome();
        let said = match (self.faults.first(), self.stopped) {
            (Some(Fault { why, .. }), _) => {
                let word = format!("refused {}", why.refusal.number());
                format!("{}: {}", painted(outcome, &word), why.refusal.text())
            }
            (None, Some(part)) => {
                let word = painted(outcome, outcome.text());
                format!("{word}: {} is over the limit; --all has none", words(part))
            }
            (None, None) => {
                let (segments, sites) =
                    (count(self.segments, "segment"), count(self.sites, "site"));
                format!("{}, {segments}, {sites}", painted(outcome, outcome.text()))
            }
        };
        match scope {
            Scope::All => said,
            Scope::Segments => format!("{said} (header, entry table and segments only)"),
        }
    }

    /// What the verdict's own line doesn't say in full. A fault of the whole file
    /// stands there.
    fn below(&self) -> Vec<String> {
        let faults = match self.faults.split_first() {
            Some((first, others)) if first.part.number().is_none() => others,
            _ => &self.faults,
        };
        let faults = faults
            .iter()
            .map(|fault| format!("{}: {}", words(fault.part), fault.why));
        let more = (self.more > 0).then(|| count(self.more, "more fault"));
        let stopped = self.stopped.filter(|_| !self.faults.is_empty());
        let stopped = stopped.map(|part| format!("{}: not checked: too much work", words(part)));
        faults.chain(more).chain(stopped).collect()
    }
}

fn words(part: Part) -> String {
    match part {
        Part::Header => "header".to_string(),
        Part::Entries => "entry table".to_string(),
        Part::Names => "names".to_string(),
        Part::ResourceTable => "resource table".to_string(),
        Part::Module(number) => format!("module {number}"),
        Part::Resource(number) => format!("resource {number}"),
        Part::Segment(number) => format!("segment {number}"),
    }
}

fn painted(outcome: Outcome, text: &str) -> String {
    let colour = match outcome {
        Outcome::Accepted => Colour::Green,
        Outcome::Refused => Colour::Red,
        Outcome::TooMuchWork | Outcome::Unread => Colour::Yellow,
    };
    match colour::on_output() {
        true => colour.paint(text),
        false => text.to_string(),
    }
}
