//! Why a command could not be carried out.

use crate::commands::Command;
use crate::escape::escaped;
use std::ffi::OsStr;
use std::fmt::Display;
use std::io::{self, Write};
use std::os::unix::ffi::OsStrExt;

/// The lines for standard error, each ended; none where nobody reads them.
#[derive(Debug, PartialEq, Eq)]
pub struct Failure {
    lines: String,
}

impl Failure {
    pub fn new(message: impl Display) -> Self {
        let lines = format!("nemod: {message}\n");
        Failure { lines }
    }

    /// The command line is wrong.
    pub fn usage(command: Option<&Command>, message: impl Display) -> Self {
        let lines = match command.map(|command| command.name) {
            Some(name) => format!("nemod: {name}: {message}\nTry 'nemod {name} --help'.\n"),
            None => format!("nemod: {message}\nTry 'nemod --help'.\n"),
        };
        Failure { lines }
    }

    /// A file could not be read or written.
    pub fn of_file(path: &OsStr, reason: impl Display) -> Self {
        Failure::new(format_args!("{}: {reason}", escaped(path.as_bytes())))
    }

    /// Standard output could not be written. Whoever closed its other end has
    /// seen enough, and is told nothing.
    pub fn of_output(error: &io::Error) -> Self {
        match error.kind() {
            io::ErrorKind::BrokenPipe => Failure {
                lines: String::new(),
            },
            _ => Failure::new(format_args!("standard output: {error}")),
        }
    }

    /// Both.
    pub fn and(mut self, other: Failure) -> Self {
        self.lines += &other.lines;
        self
    }

    pub fn report(&self) {
        // Where standard error can't be written, there is nobody to tell.
        let _ = io::stderr().write_all(self.lines.as_bytes());
    }
}
