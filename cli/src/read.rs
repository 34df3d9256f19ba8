//! Reading files.

use crate::failure::Failure;
use crate::system;
use std::ffi::OsStr;
use std::fs::{File, Metadata};
use std::io::{self, Read};
use std::os::fd::AsFd;
use std::sync::atomic::{AtomicBool, Ordering};

/// The longest image.
pub const LONGEST: usize = 16_777_216;

/// A file that was read.
pub struct Input {
    /// All its bytes, or one more than the longest image has, which is then
    /// refused. So any file and any stream comes to an end here.
    pub bytes: Vec<u8>,
    /// What the system says of it, by which it is told from other files.
    pub found: Metadata,
}

/// Reads a file, or standard input for `-`.
pub fn file(path: &OsStr) -> io::Result<Input> {
    let source = match path == "-" {
        true => standard_input()?,
        false => File::open(path)?,
    };
    let found = source.metadata()?;
    let mut bytes = Vec::new();
    source.take(LONGEST as u64 + 1).read_to_end(&mut bytes)?;
    Ok(Input { bytes, found })
}

/// The same, for commands that can do nothing without the file.
pub fn needed(path: &OsStr) -> Result<Input, Failure> {
    file(path).map_err(|error| Failure::of_file(path, error))
}

/// Standard input as a file, since `io::stdin` takes one that can't be read for
/// an empty one. It is read once: a second reader would find nothing there, and
/// take that for the file.
fn standard_input() -> io::Result<File> {
    static TAKEN: AtomicBool = AtomicBool::new(false);
    if !system::input_was_open() {
        return Err(io::Error::other("standard input is closed"));
    }
    if TAKEN.swap(true, Ordering::Relaxed) {
        return Err(io::Error::other("standard input was read before"));
    }
    Ok(io::stdin().as_fd().try_clone_to_owned()?.into())
}
