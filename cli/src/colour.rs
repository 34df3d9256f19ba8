//! Colours, for those who look at a terminal.

use std::env;
use std::io::{self, IsTerminal};

#[derive(Clone, Copy, Debug, PartialEq, Eq)]
pub enum Colour {
    Red = 31,
    Green = 32,
    Yellow = 33,
}

/// Are there colours on standard output? Not for those who say that they want
/// none.
pub fn on_output() -> bool {
    let unwanted = env::var_os("NO_COLOR").is_some_and(|value| !value.is_empty());
    io::stdout().is_terminal() && !unwanted
}

impl Colour {
    pub fn paint(self, text: &str) -> String {
        format!("\x1b[1;{}m{text}\x1b[0m", self as u8)
    }
}
