//! Where the bytes go that a command gives: to a file, to standard output, or
//! nowhere.

use crate::arguments::Arguments;
use crate::escape::escaped;
use crate::failure::Failure;
use crate::output::{self, Output};
use crate::output_file::{leads_to, OutputFile};
use crate::read::Input;
use parchgable::Refused;
use std::ffi::OsStr;
use std::os::unix::ffi::OsStrExt;

pub enum Delivery<'a> {
    Nowhere,
    /// `-`, or a path that leads to where standard output goes, as
    /// `/dev/stdout`.
    Output,
    File(&'a OsStr),
}

impl<'a> Delivery<'a> {
    /// What the option `--output` says.
    pub fn of(arguments: &'a Arguments) -> Self {
        match arguments.value("--output") {
            None => Delivery::Nowhere,
            Some(path) if path == "-" => Delivery::Output,
            Some(path) if output::found().is_some_and(|found| leads_to(path, &found)) => {
                Delivery::Output
            }
            Some(path) => Delivery::File(path),
        }
    }

    pub fn is_output(&self) -> bool {
        matches!(self, Delivery::Output)
    }

    /// The file that is read is not replaced by what comes out of it.
    pub fn spares(&self, input: &Input) -> Result<(), Failure> {
        match self {
            Delivery::File(path) if input.found.is_file() && leads_to(path, &input.found) => {
                Err(Failure::of_file(path, "it is the file that is read"))
            }
            _ => Ok(()),
        }
    }

    /// Delivers all or nothing: a file takes its place when the text about it is
    /// written. On standard output the bytes stand alone.
    pub fn deliver(
        &self,
        bytes: &[u8],
        output: &mut Output,
        text: impl FnOnce(&mut Output) -> Result<(), Failure>,
    ) -> Result<(), Failure> {
        match self {
            Delivery::Nowhere => text(output),
            Delivery::Output => output.write_all(bytes),
            Delivery::File(path) => {
                let failed = |error| Failure::of_file(path, error);
                let file = OutputFile::write(path.as_ref(), bytes).map_err(failed)?;
                text(output)?;
                output.flush()?;
                if file.loses_owner() {
                    let file = escaped(path.as_bytes());
                    Failure::new(format_args!("{file}: its owner or group could not be kept"))
                        .report();
                }
                file.commit().map_err(failed)
            }
        }
    }

    /// Where the bytes go to standard output, a refusal must not be taken for
    /// them.
    pub fn tell(&self, refused: Refused, output: &mut Output) -> Result<(), Failure> {
        match self.is_output() {
            true => {
                Failure::new(refused).report();
                Ok(())
            }
            false => writeln!(output, "{refused}"),
        }
    }
}
