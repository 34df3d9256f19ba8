//! Listing programs that are wrong in one respect, to be found out.

use crate::generated;
use crate::program::{Given, Lists, Written};
use crate::run::Run;
use std::{fs, io};
use tally::Tally;

/// Spoils what is written for an image. Without an image, the file can't be
/// read.
type Spoil = fn(Option<&[u8]>, Written) -> Written;

struct Spoiled {
    spoil: Spoil,
    /// Only standard input is read.
    without_files: bool,
}

impl Lists for Spoiled {
    fn list(&self, given: Given) -> io::Result<Written> {
        let image = match given.file {
            Some(file) if !self.without_files => fs::read(file).ok(),
            _ => Some(given.input.to_vec()),
        };
        let right = match &image {
            Some(image) => written(&reference::listing(image), b""),
            None => written(b"", b"it can't be read\n"),
        };
        Ok((self.spoil)(image.as_deref(), right))
    }
}

fn written(output: &[u8], errors: &[u8]) -> Written {
    Written {
        output: output.to_vec(),
        errors: errors.to_vec(),
    }
}

/// The checks of all groups, without the special images.
fn checked(spoil: Spoil, without_files: bool) -> Tally {
    let program = Spoiled {
        spoil,
        without_files,
    };
    let all = |run: &mut Run| {
        run.by_hand()?;
        run.longest()?;
        run.generated(generated::drawn())?;
        run.unreadable()
    };
    let mut run = Run::new(&program).expect("a folder");
    all(&mut run).expect("no program to fail");
    run.tally.add(run.seen.check());
    run.tally
}

#[test]
fn the_right_one_has_no_differences() {
    let tally = checked(|_, right| right, false);
    assert!(tally.passed() > 500);
    assert_eq!(tally.failed(), 0);
}

#[test]
fn files_are_read() {
    assert!(checked(|_, right| right, true).failed() > 0);
}

/// The text with another one in place of each line.
fn by_line(right: Written, change: fn(usize, &str) -> String) -> Written {
    let text = String::from_utf8(right.output).expect("a text");
    let lines = text.lines().enumerate();
    let changed: String = lines.map(|(at, line)| change(at, line) + "\n").collect();
    written(changed.as_bytes(), &right.errors)
}

/// A program that lists so many bytes, and not 65,536.
fn with_limit(image: Option<&[u8]>, right: Written, limit: usize) -> Written {
    match image {
        Some(image) if image.len() > limit => written(b"too long\n", b""),
        Some(image) => written(&reference::listing(&image[..image.len().min(65_536)]), b""),
        None => right,
    }
}

/// A program with room for so many bytes of output.
fn cut(mut right: Written, length: usize) -> Written {
    right.output.truncate(length);
    right
}

const WRONG: [(&str, Spoil); 14] = [
    ("lower case", |_, right| {
        written(&right.output.to_ascii_lowercase(), &right.errors)
    }),
    ("no padding", |_, right| {
        by_line(right, |_, line| line.replace(":0", ":"))
    }),
    ("ordinals numbered without null ones", |_, right| {
        by_line(right, |at, line| match line.split_once(' ') {
            Some((_, rest)) if line.contains(':') => format!("{at} {rest}"),
            _ => line.to_string(),
        })
    }),
    ("no last newline", |_, right| {
        let length = right.output.len().saturating_sub(1);
        cut(right, length)
    }),
    ("other newlines", |_, right| {
        by_line(right, |_, line| format!("{line}\r"))
    }),
    ("no end", |_, right| {
        let text = String::from_utf8_lossy(&right.output).replace("end\n", "");
        written(text.as_bytes(), &right.errors)
    }),
    ("65,535 bytes at most", |image, right| {
        with_limit(image, right, 65_535)
    }),
    ("65,537 bytes at most", |image, right| {
        with_limit(image, right, 65_537)
    }),
    ("room for all but a byte", |_, right| cut(right, 391_295)),
    ("refusals as errors", |_, right| {
        match right.output.starts_with(b"refused") {
            true => written(b"", &right.output),
            false => right,
        }
    }),
    ("chatter", |_, right| written(&right.output, b"done\n")),
    ("two lines of errors", |image, right| match image {
        Some(_) => right,
        None => written(b"", b"it can't be read\nat all\n"),
    }),
    ("half a line of errors", |image, right| match image {
        Some(_) => right,
        None => written(b"", b"it can't be read"),
    }),
    ("errors as output", |image, right| match image {
        Some(_) => right,
        None => written(&right.errors, &right.errors),
    }),
];

#[test]
fn every_wrong_one_is_found() {
    for (name, spoil) in WRONG {
        assert!(checked(spoil, false).failed() > 0, "{name}");
    }
}
