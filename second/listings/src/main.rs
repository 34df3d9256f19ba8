//! Compares what the program `list` writes with the reference's listings.
//!
//! The program is run on images written out by hand, on the longest listings
//! that there can be, and on generated, damaged and special images. It takes
//! each from a file or from standard input. Standard output must be the
//! listing, byte for byte, and standard error empty. What can't be read must
//! give one line on standard error and nothing else. The last line is the count
//! of checks; the exit status is 0 when none failed.

#![forbid(unsafe_code)]

mod by_hand;
mod difference;
mod folder;
mod generated;
mod images;
mod longest;
mod program;
mod run;
mod seen;
#[cfg(test)]
mod tests;
mod unreadable;

use program::Program;
use std::path::PathBuf;
use std::process::ExitCode;

const USAGE: &str = "usage: listings [PROGRAM]";

fn main() -> ExitCode {
    let mut arguments = std::env::args_os().skip(1);
    let path = arguments.next().map_or_else(usual_path, PathBuf::from);
    if arguments.next().is_some() {
        eprintln!("{USAGE}");
        return ExitCode::from(2);
    }
    let program = Program::new(path);
    match run::run(&program) {
        Ok(tally) => {
            println!("{}", tally.last_line(true));
            ExitCode::from(u8::from(tally.failed() > 0))
        }
        Err(error) => {
            eprintln!("{program}: {error}");
            ExitCode::from(2)
        }
    }
}

/// Where the repository builds the program.
fn usual_path() -> PathBuf {
    PathBuf::from(concat!(
        env!("CARGO_MANIFEST_DIR"),
        "/../../crates/list/out/list"
    ))
}
