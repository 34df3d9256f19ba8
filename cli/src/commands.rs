//! The commands and their options.

mod table;

pub use table::COMMANDS;

use crate::arguments::Arguments;
use crate::escape::escaped;
use crate::failure::Failure;
use crate::output::Output;
use crate::status::Status;
use std::ffi::OsStr;
use std::os::unix::ffi::OsStrExt;

pub struct Command {
    pub name: &'static str,
    /// What follows the name on the usage line.
    pub usage: &'static str,
    /// The operands' names.
    pub operands: &'static [&'static str],
    /// How many of them are needed.
    pub least: usize,
    /// May the last one be repeated?
    pub repeats: bool,
    options: &'static [Opt],
    /// What it does, in a line.
    pub summary: &'static str,
    pub text: &'static str,
    pub run: fn(&Arguments, &mut Output) -> Result<Status, Failure>,
}

pub struct Opt {
    pub name: &'static str,
    /// Its letter, after one hyphen.
    pub letter: Option<char>,
    /// What its value is, if it takes one.
    pub value: Option<&'static str>,
    pub text: &'static str,
}

/// The option that every command has.
const HELP: Opt = Opt {
    name: "--help",
    letter: Some('h'),
    value: None,
    text: "This help.",
};

impl Command {
    pub fn named(name: &OsStr) -> Result<&'static Command, Failure> {
        let found = COMMANDS.iter().find(|command| name == command.name);
        let unknown = || {
            let name = escaped(name.as_bytes());
            let what = if name.starts_with('-') {
                "option"
            } else {
                "command"
            };
            Failure::usage(None, format_args!("unknown {what} '{name}'"))
        };
        found.ok_or_else(unknown)
    }

    pub fn options(&self) -> impl Iterator<Item = &'static Opt> {
        self.options.iter().chain([&HELP])
    }

    pub fn option(&self, name: &OsStr) -> Option<&'static Opt> {
        self.options().find(|option| name == option.name)
    }

    pub fn option_of_letter(&self, letter: char) -> Option<&'static Opt> {
        self.options().find(|option| option.letter == Some(letter))
    }
}
