//! Runs the comparison. The last line is the count of checks; the exit status is
//! 0 when none failed.

#![forbid(unsafe_code)]

use compare::options::Options;
use compare::{calls, run};
use std::process::ExitCode;

fn main() -> ExitCode {
    let calls = calls::all();
    let arguments = std::env::args().skip(1);
    let options = match Options::parse(arguments, &run::names(&calls)) {
        Ok(options) => options,
        Err(message) => {
            eprintln!("{message}");
            return ExitCode::from(2);
        }
    };
    let tally = run::run(&calls, &options);
    println!("{}", tally.last_line(options.is_whole()));
    match tally.failed() {
        0 => ExitCode::SUCCESS,
        _ => ExitCode::FAILURE,
    }
}
