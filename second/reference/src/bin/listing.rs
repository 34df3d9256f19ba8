//! Writes the listing of the image in the file named as the argument, or on
//! standard input without one. An image that can't be read gives one line on
//! standard error and nothing on standard output.

use std::ffi::OsString;
use std::fs::File;
use std::io::{self, Read, Write};
use std::process::ExitCode;

/// One byte more than the longest image that is listed: enough to know that an
/// image is too long.
const ENOUGH: u64 = 65_537;

fn main() -> ExitCode {
    let listed = read(std::env::args_os().nth(1))
        .map(|image| reference::listing(&image))
        .and_then(|bytes| write(&bytes));
    match listed {
        Ok(()) => ExitCode::SUCCESS,
        Err(error) => {
            eprintln!("reference-listing: {error}");
            ExitCode::FAILURE
        }
    }
}

/// The image's bytes, up to `ENOUGH` of them.
fn read(file: Option<OsString>) -> io::Result<Vec<u8>> {
    let mut image = Vec::new();
    match file {
        Some(name) => File::open(name)?.take(ENOUGH).read_to_end(&mut image)?,
        None => io::stdin().lock().take(ENOUGH).read_to_end(&mut image)?,
    };
    Ok(image)
}

/// Writes the whole listing to standard output.
fn write(bytes: &[u8]) -> io::Result<()> {
    let mut out = io::stdout().lock();
    out.write_all(bytes)?;
    out.flush()
}
