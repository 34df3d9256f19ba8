//! Compares the time that preparing a segment takes in the static library `ne`,
//! in the second program, in careful Rust and in a plain copy. With `slowest` it
//! looks for the segments whose preparing takes longest, in all families or in
//! some, and with `queries` for the images on which queries do. `bench/run` proves and builds the library,
//! builds this program and runs it.

#![forbid(unsafe_code)]

mod buffers;
mod library;
mod measure;
mod programs;
mod report;
mod slow;

use bench::inputs;
use std::process::ExitCode;

fn main() -> ExitCode {
    let arguments: Vec<String> = std::env::args().skip(1).collect();
    match arguments.iter().map(String::as_str).collect::<Vec<_>>()[..] {
        [] => compare(),
        ["slowest"] => slow::segments(""),
        ["slowest", part] if slow::has_family(part) => slow::segments(part),
        ["queries"] => slow::queries(),
        _ => {
            eprintln!("usage: bench/run [slowest [PART OF A FAMILY'S NAME] | queries]");
            return ExitCode::from(2);
        }
    }
    ExitCode::SUCCESS
}

fn compare() {
    let inputs = inputs::all();
    let times = measure::all(&inputs);
    report::ratios(&inputs, &times);
    report::growth(&inputs, &times);
}
