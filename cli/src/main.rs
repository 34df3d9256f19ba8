//! The command `nemod`: checks, shows and prepares 16-bit Windows modules.

#![deny(unsafe_code)]

mod arguments;
mod check;
mod colour;
mod commands;
mod delivery;
mod describe;
mod dump;
mod escape;
mod explain;
mod failure;
mod help;
mod info;
mod json;
mod list;
mod lists;
mod numbers;
mod output;
mod output_file;
mod prepare;
mod query;
mod read;
mod sha256;
mod status;
#[allow(unsafe_code)]
mod system;
mod tables;
mod words;

use arguments::Arguments;
use commands::Command;
use failure::Failure;
use output::Output;
use status::Status;
use std::env::{self, ArgsOs};
use std::process::ExitCode;

fn main() -> ExitCode {
    let mut arguments = env::args_os();
    arguments.next();
    let status = run(arguments).unwrap_or_else(|failure| {
        failure.report();
        Status::Failed
    });
    status.into()
}

fn run(mut arguments: ArgsOs) -> Result<Status, Failure> {
    let missing = || Failure::usage(None, "a command is missing");
    let first = arguments.next().ok_or_else(missing)?;
    let mut output = Output::new();
    let status = match first.to_str() {
        Some("--help" | "-h" | "help") => help::asked(arguments, &mut output)?,
        Some("--version" | "-V") => help::version(arguments, &mut output)?,
        _ => run_command(Command::named(&first)?, arguments, &mut output)?,
    };
    output.flush()?;
    Ok(status)
}

fn run_command(
    command: &'static Command,
    arguments: ArgsOs,
    output: &mut Output,
) -> Result<Status, Failure> {
    let arguments = Arguments::parse(command, arguments)?;
    if arguments.has("--help") {
        return help::of(command, output);
    }
    arguments.check_operands()?;
    (command.run)(&arguments, output)
}
