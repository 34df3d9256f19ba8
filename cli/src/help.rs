//! Writing the help texts.

use crate::arguments::extra_argument;
use crate::commands::{Command, Opt, COMMANDS};
use crate::failure::Failure;
use crate::output::Output;
use crate::status::Status;
use std::ffi::OsString;

const INTRODUCTION: &str = "\
Reads 16-bit Windows modules (NE: drivers, libraries and programs of Windows 1
to 3) and prepares their segments for loading. FILE is a module of at most
16,777,216 bytes, or - for standard input. Numbers are decimal, or hexadecimal
after 0x.";
const ENDING: &str = "\
'nemod help COMMAND' says more of each; 'nemod --version' gives the version.

exit status:
  0 if all was accepted, 1 if something was refused, 2 if something could not be
  read or written or if the command line is wrong";

/// `nemod --help`, and `nemod help` with or without a command.
pub fn asked(
    mut rest: impl Iterator<Item = OsString>,
    output: &mut Output,
) -> Result<Status, Failure> {
    let command = rest.next();
    nothing_more(rest)?;
    match command {
        Some(name) => of(Command::named(&name)?, output),
        None => all(output),
    }
}

fn all(output: &mut Output) -> Result<Status, Failure> {
    writeln!(
        output,
        "usage: nemod COMMAND ...\n\n{INTRODUCTION}\n\ncommands:"
    )?;
    for command in &COMMANDS {
        writeln!(output, "  {:<9} {}", command.name, command.summary)?;
    }
    writeln!(output, "\n{ENDING}")?;
    Ok(Status::Accepted)
}

/// `nemod COMMAND --help`.
pub fn of(command: &Command, output: &mut Output) -> Result<Status, Failure> {
    writeln!(
        output,
        "usage: nemod {} {}\n\n{}\n\noptions:",
        command.name, command.usage, command.text
    )?;
    for option in command.options() {
        writeln!(output, "  {:<21} {}", spelled(option), option.text)?;
    }
    Ok(Status::Accepted)
}

/// An option with its letter and its value.
fn spelled(option: &Opt) -> String {
    let letter = option
        .letter
        .map_or(String::new(), |letter| format!("-{letter}, "));
    let value = option
        .value
        .map_or(String::new(), |value| format!(" {value}"));
    format!("{letter}{}{value}", option.name)
}

/// `nemod --version`.
pub fn version(
    rest: impl Iterator<Item = OsString>,
    output: &mut Output,
) -> Result<Status, Failure> {
    nothing_more(rest)?;
    writeln!(output, "nemod {}", env!("CARGO_PKG_VERSION"))?;
    Ok(Status::Accepted)
}

fn nothing_more(mut rest: impl Iterator<Item = OsString>) -> Result<(), Failure> {
    match rest.next() {
        Some(extra) => Err(Failure::usage(None, extra_argument(&extra))),
        None => Ok(()),
    }
}
