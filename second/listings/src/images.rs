//! An image to be listed, and how it is handed over.

use std::fmt;

/// An image and how it was made.
#[derive(Clone, Debug)]
pub struct Image {
    /// Its kind, and its seed or its name.
    pub origin: String,
    pub bytes: Vec<u8>,
}

impl Image {
    pub fn new(origin: impl Into<String>, bytes: Vec<u8>) -> Self {
        Image {
            origin: origin.into(),
            bytes,
        }
    }
}

/// How an image is handed over.
#[derive(Clone, Copy, Debug, PartialEq, Eq, PartialOrd, Ord)]
pub enum Way {
    File,
    StandardInput,
}

pub const WAYS: [Way; 2] = [Way::File, Way::StandardInput];

impl fmt::Display for Way {
    fn fmt(&self, f: &mut fmt::Formatter<'_>) -> fmt::Result {
        f.write_str(match self {
            Way::File => "in a file",
            Way::StandardInput => "on standard input",
        })
    }
}
