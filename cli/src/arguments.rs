//! The arguments of a command.

use crate::commands::{Command, Opt};
use crate::escape::escaped;
use crate::failure::Failure;
use crate::numbers;
use std::ffi::{OsStr, OsString};
use std::fmt::Display;
use std::os::unix::ffi::OsStrExt;

/// Operands and options as they were given, the options known to the command.
pub struct Arguments {
    command: &'static Command,
    operands: Vec<OsString>,
    /// Each with its value, which is empty for an option that takes none.
    options: Vec<(&'static str, OsString)>,
}

impl Arguments {
    /// Options may stand anywhere before `--`; what follows it are operands.
    pub fn parse(
        command: &'static Command,
        mut given: impl Iterator<Item = OsString>,
    ) -> Result<Self, Failure> {
        let mut arguments = Arguments {
            command,
            operands: Vec::new(),
            options: Vec::new(),
        };
        while let Some(argument) = given.next() {
            match argument.as_bytes() {
                b"--" => {
                    arguments.operands.extend(given);
                    break;
                }
                [b'-', b'-', ..] => arguments.add_named(&argument, &mut given)?,
                [b'-', letters @ ..] if !letters.is_empty() => {
                    arguments.add_letters(letters, &mut given)?;
                }
                _ => arguments.operands.push(argument),
            }
        }
        Ok(arguments)
    }

    /// `--name`, `--name value` or `--name=value`.
    fn add_named(
        &mut self,
        argument: &OsStr,
        rest: &mut impl Iterator<Item = OsString>,
    ) -> Result<(), Failure> {
        let (name, joined) = split(argument);
        let found = self.command.option(name);
        let option = found.ok_or_else(|| self.unknown_option(name.as_bytes()))?;
        match (option.value, joined) {
            (None, Some(_)) => Err(self.wrong(format_args!("{} takes no value", option.name))),
            (Some(_), Some(value)) => self.add(option, value.to_os_string()),
            (_, None) => self.add_alone(option, rest),
        }
    }

    /// One option or several, each of one letter: `-rq`, `-o value`, `-ovalue`.
    fn add_letters(
        &mut self,
        letters: &[u8],
        rest: &mut impl Iterator<Item = OsString>,
    ) -> Result<(), Failure> {
        for (index, &letter) in letters.iter().enumerate() {
            let found = self.command.option_of_letter(char::from(letter));
            let option = found.ok_or_else(|| self.unknown_option(&[b'-', letter]))?;
            let joined = &letters[index + 1..];
            if option.value.is_some() && !joined.is_empty() {
                let value = joined.strip_prefix(b"=").unwrap_or(joined);
                return self.add(option, OsStr::from_bytes(value).to_os_string());
            }
            self.add_alone(option, rest)?;
        }
        Ok(())
    }

    /// An option whose value, if it takes one, is the next argument.
    fn add_alone(
        &mut self,
        option: &'static Opt,
        rest: &mut impl Iterator<Item = OsString>,
    ) -> Result<(), Failure> {
        let is_value = |next: &OsString| next == "-" || !next.as_bytes().starts_with(b"-");
        let value = match option.value {
            None => Some(OsString::new()),
            Some(_) => rest.next().filter(is_value),
        };
        match value {
            Some(value) => self.add(option, value),
            None => Err(self.wrong(format_args!("{} needs a value", option.name))),
        }
    }

    fn add(&mut self, option: &'static Opt, value: OsString) -> Result<(), Failure> {
        if self.has(option.name) {
            return Err(self.wrong(format_args!("{} is given twice", option.name)));
        }
        self.options.push((option.name, value));
        Ok(())
    }

    fn unknown_option(&self, name: &[u8]) -> Failure {
        self.wrong(format_args!("unknown option '{}'", escaped(name)))
    }

    /// Are there as many operands as the command takes?
    pub fn check_operands(&self) -> Result<(), Failure> {
        let (given, known) = (self.operands.len(), self.command.operands);
        if given < self.command.least {
            return Err(self.missing(known[given]));
        }
        match self.operands.get(known.len()) {
            Some(extra) if !self.command.repeats => Err(self.wrong(extra_argument(extra))),
            _ => Ok(()),
        }
    }

    /// An operand is missing.
    pub fn missing(&self, operand: &str) -> Failure {
        self.wrong(format_args!("{operand} is missing"))
    }

    /// A wrong command line, with a hint to this command's help.
    pub fn wrong(&self, message: impl Display) -> Failure {
        Failure::usage(Some(self.command), message)
    }

    pub fn operands(&self) -> &[OsString] {
        &self.operands
    }

    /// The operand at an index at which the command needs one.
    pub fn operand(&self, index: usize) -> &OsStr {
        &self.operands[index]
    }

    pub fn has(&self, option: &str) -> bool {
        self.value(option).is_some()
    }

    pub fn value(&self, option: &str) -> Option<&OsStr> {
        let mut options = self.options.iter();
        let found = options.find(|(name, _)| *name == option);
        found.map(|(_, value)| value.as_os_str())
    }

    /// A number of 32 bits that was given as an operand or as a value.
    pub fn number(&self, text: &OsStr) -> Result<u32, Failure> {
        numbers::number(text.as_bytes(), u32::MAX).map_err(|wrong| self.wrong(wrong))
    }
}

/// The message about an argument that there is no use for.
pub fn extra_argument(argument: &OsStr) -> String {
    format!("extra argument '{}'", escaped(argument.as_bytes()))
}

/// An option's name, and its value if that stands after a `=`.
fn split(argument: &OsStr) -> (&OsStr, Option<&OsStr>) {
    let mut parts = argument.as_bytes().splitn(2, |byte| *byte == b'=');
    let name = parts.next().unwrap_or_default();
    (OsStr::from_bytes(name), parts.next().map(OsStr::from_bytes))
}
