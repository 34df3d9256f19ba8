//! Prepares one segment of a module and writes its bytes to standard output,
//! as prepare.c does.
//!
//!     cargo run --release --example prepare FILE SEGMENT >OUT
//!
//! Where segments are loaded and where imported functions are, a loader knows.
//! Here both are made up: segment n is at selector 1000h + 8 (n - 1), and what
//! record n imports is at F000h:n.

use parchgable::{Image, Prepared, Refused};
use std::fs::File;
use std::io::{stdout, Read, Write};
use std::process::ExitCode;

/// A byte more than an image may have, so that a longer file is refused and not cut.
const LONGEST: u64 = 16_777_216 + 1;

fn main() -> ExitCode {
    let arguments: Vec<String> = std::env::args().collect();
    let asked = match &arguments[..] {
        [_, file, segment] => read(file).zip(segment.parse().ok()),
        _ => None,
    };
    let Some((file, segment)) = asked else {
        eprintln!("usage: prepare FILE SEGMENT");
        return ExitCode::from(2);
    };
    match prepare(&file, segment) {
        Ok(prepared) => write(&prepared.bytes),
        Err(refused) => {
            eprintln!("{refused}");
            ExitCode::FAILURE
        }
    }
}

fn prepare(file: &[u8], number: u32) -> Result<Prepared, Refused> {
    let image = Image::new(file);
    // What is refused has no segments and no records; preparing then says why.
    let segments = image.header().map_or(0, |header| header.segments);
    let records = image.segment(number).map_or(0, |segment| segment.records);
    let selectors: Vec<u16> = (0..segments).map(|n| (0x1000 + 8 * n) as u16).collect();
    let answers: Vec<u32> = (0..records).map(|n| 0xF000_0000 + n + 1).collect();
    image.prepared(number, &selectors, &answers)
}

fn read(name: &str) -> Option<Vec<u8>> {
    let mut file = Vec::new();
    let opened = File::open(name).ok()?;
    opened.take(LONGEST).read_to_end(&mut file).ok()?;
    Some(file)
}

fn write(bytes: &[u8]) -> ExitCode {
    let mut out = stdout().lock();
    match out.write_all(bytes).and_then(|()| out.flush()) {
        Ok(()) => ExitCode::SUCCESS,
        Err(_) => ExitCode::from(2),
    }
}
