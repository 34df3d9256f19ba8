//! How far the work is, on standard error, for those who look at a terminal.

use crate::escape::escaped;
use std::ffi::OsStr;
use std::io::{self, IsTerminal, Write};
use std::os::unix::ffi::OsStrExt;
use std::time::{Duration, Instant};

/// Work that takes less is done before one looks.
const PATIENCE: Duration = Duration::from_secs(1);
/// The time between two lines.
const PAUSE: Duration = Duration::from_millis(200);
/// The columns of a line at most.
const COLUMNS: usize = 78;
/// Goes to the start of the line and clears it.
const CLEAR: &str = "\r\x1b[K";

pub struct Progress {
    files: usize,
    file: usize,
    name: String,
    next: Instant,
    on_terminal: bool,
    /// Do other lines go to the terminal too?
    shared: bool,
    shown: bool,
}

impl Progress {
    pub fn new(files: usize) -> Self {
        Progress {
            files,
            file: 0,
            name: String::new(),
            next: Instant::now() + PATIENCE,
            on_terminal: io::stderr().is_terminal(),
            shared: io::stdout().is_terminal(),
            shown: false,
        }
    }

    pub fn next_file(&mut self, name: &OsStr) {
        self.file += 1;
        self.name = escaped(name.as_bytes());
        self.show("");
    }

    pub fn segment(&mut self, number: u32, segments: u32) {
        if self.is_due() {
            self.show(&format!(", segment {number} of {segments}"));
        }
    }

    /// Makes room for the lines of a report, if they go to the same terminal.
    pub fn make_room(&mut self) {
        if self.shared {
            self.finish();
        }
    }

    pub fn finish(&mut self) {
        if self.shown {
            write(CLEAR);
            self.shown = false;
        }
    }

    fn is_due(&self) -> bool {
        self.on_terminal && Instant::now() >= self.next
    }

    fn show(&mut self, part: &str) {
        if self.is_due() {
            let line = format!("{} of {}: {}{part}", self.file, self.files, self.name);
            // The name is ASCII, so a line can be cut anywhere.
            write(&format!("{CLEAR}{}", &line[..line.len().min(COLUMNS)]));
            self.shown = true;
            self.next = Instant::now() + PAUSE;
        }
    }
}

fn write(text: &str) {
    // Where standard error can't be written, there is nobody to tell.
    let _ = io::stderr().write_all(text.as_bytes());
}
