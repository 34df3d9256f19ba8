//! Standard output.

use crate::failure::Failure;
use crate::system;
use std::fmt;
use std::fs::{File, Metadata};
use std::io::{self, BufWriter, Write};
use std::os::fd::AsFd;

/// `write!` and `writeln!` work on it, and fail with a [`Failure`]. What can't
/// be written is never lost without one: a closed output fails too, which
/// `io::stdout` would take for written.
pub struct Output {
    to: io::Result<BufWriter<File>>,
}

impl Output {
    pub fn new() -> Self {
        Output {
            to: standard_output().map(BufWriter::new),
        }
    }

    pub fn write_fmt(&mut self, text: fmt::Arguments) -> Result<(), Failure> {
        self.on(|to| to.write_fmt(text))
    }

    pub fn write_all(&mut self, bytes: &[u8]) -> Result<(), Failure> {
        self.on(|to| to.write_all(bytes))
    }

    /// Nothing is lost where nothing was written.
    pub fn flush(&mut self) -> Result<(), Failure> {
        match self.to {
            Ok(_) => self.on(BufWriter::flush),
            Err(_) => Ok(()),
        }
    }

    fn on(
        &mut self,
        write: impl FnOnce(&mut BufWriter<File>) -> io::Result<()>,
    ) -> Result<(), Failure> {
        match &mut self.to {
            Ok(to) => write(to).map_err(|error| Failure::of_output(&error)),
            Err(error) => Err(Failure::of_output(error)),
        }
    }
}

fn standard_output() -> io::Result<File> {
    match system::output_was_open() {
        true => Ok(io::stdout().as_fd().try_clone_to_owned()?.into()),
        false => Err(io::Error::other("it is closed")),
    }
}

/// What the system says of standard output, if it is open.
pub fn found() -> Option<Metadata> {
    standard_output().ok()?.metadata().ok()
}
