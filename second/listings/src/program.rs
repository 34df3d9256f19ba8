//! Runs a listing program.

use std::fmt;
use std::io::{self, Write};
use std::path::{Path, PathBuf};
use std::process::{Command, Stdio};
use std::thread;

/// What a program is given: a file's name as its argument, or none, and bytes
/// on standard input.
#[derive(Clone, Copy)]
pub struct Given<'a> {
    pub file: Option<&'a Path>,
    pub input: &'a [u8],
}

/// What it wrote.
#[derive(Clone, Debug, PartialEq, Eq)]
pub struct Written {
    pub output: Vec<u8>,
    pub errors: Vec<u8>,
}

/// Something that lists; tests have wrong ones.
pub trait Lists {
    fn list(&self, given: Given) -> io::Result<Written>;
}

pub struct Program {
    path: PathBuf,
}

impl Program {
    pub fn new(path: PathBuf) -> Self {
        Program { path }
    }
}

impl fmt::Display for Program {
    fn fmt(&self, f: &mut fmt::Formatter<'_>) -> fmt::Result {
        write!(f, "{}", self.path.display())
    }
}

impl Lists for Program {
    fn list(&self, given: Given) -> io::Result<Written> {
        let mut child = Command::new(&self.path)
            .args(given.file)
            .stdin(Stdio::piped())
            .stdout(Stdio::piped())
            .stderr(Stdio::piped())
            .spawn()?;
        let standard_input = child.stdin.take();
        // Both outputs are read while the input is written, so that neither
        // side waits for the other with a full pipe.
        let done = thread::scope(|scope| {
            scope.spawn(move || {
                // A program that knows enough may end before it has read all.
                // The pipe is closed when the handle goes.
                standard_input.map(|mut pipe| pipe.write_all(given.input))
            });
            child.wait_with_output()
        })?;
        Ok(Written {
            output: done.stdout,
            errors: done.stderr,
        })
    }
}
