//! Compares the static library `ne` with the reference on ever new images, on
//! all cores, until it is stopped: by Ctrl-C or SIGTERM, by its limits, or by the
//! first difference.
//!
//! What is asked, and of which images, is the comparison's; every thread has
//! seeds of its own. The exit status is 0 when there was no difference, 1 when
//! there was one, and 2 when nothing could be run or shown.

#![deny(unsafe_code)]

mod options;
mod progress;
mod run;
mod shared;
#[allow(unsafe_code)]
mod signals;
mod work;

#[cfg(test)]
mod tests;

use options::Options;
use progress::Shown;
use run::Ending;
use std::io::{self, stdout, IsTerminal};
use std::process::ExitCode;

fn main() -> ExitCode {
    let options = match Options::parse(std::env::args().skip(1)) {
        Ok(options) => options,
        Err(message) => {
            eprintln!("{message}");
            return ExitCode::from(2);
        }
    };
    match soak(&options) {
        Ok(ending) => ExitCode::from(ending.status()),
        Err(error) => {
            eprintln!("soak: {error}");
            ExitCode::from(2)
        }
    }
}

fn soak(options: &Options) -> io::Result<Ending> {
    let asked_to_stop = signals::catch()?;
    let shown = match stdout().is_terminal() {
        true => Shown::in_place(stdout()),
        false => Shown::by_lines(stdout()),
    };
    run::run(compare::calls::all, options, asked_to_stop, shown)
}
