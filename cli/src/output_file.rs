//! A file that is there whole or not at all.

mod place;
mod temporary;

use place::Place;
use std::ffi::OsStr;
use std::fs::{Metadata, OpenOptions};
use std::io::{self, Write};
use std::os::unix::fs::MetadataExt;
use std::path::{Path, PathBuf};
use temporary::Temporary;

/// A file's new content, not yet in its place.
pub enum OutputFile {
    /// In a temporary file that takes the file's place.
    Beside(Temporary),
    /// For what is no file that could be replaced, as a pipe.
    Through { path: PathBuf, content: Vec<u8> },
}

impl OutputFile {
    /// Writes the content beside the place. What is there stays there.
    pub fn write(place: &Path, content: &[u8]) -> io::Result<Self> {
        Ok(match Place::of(place)? {
            Place::Replaced { path, existing } => {
                OutputFile::Beside(Temporary::write(path, existing, content)?)
            }
            Place::Through(path) => OutputFile::Through {
                path,
                content: content.to_vec(),
            },
        })
    }

    /// Puts the content into its place.
    pub fn commit(self) -> io::Result<()> {
        match self {
            OutputFile::Beside(temporary) => temporary.commit(),
            OutputFile::Through { path, content } => {
                let mut file = OpenOptions::new().write(true).truncate(true).open(path)?;
                file.write_all(&content)
            }
        }
    }

    /// Does the file in the place have another owner than the new one?
    pub fn loses_owner(&self) -> bool {
        matches!(self, OutputFile::Beside(temporary) if temporary.loses_owner)
    }
}

/// Does a path lead to this file?
pub fn leads_to(path: &OsStr, file: &Metadata) -> bool {
    std::fs::metadata(path).is_ok_and(|found| same(&found, file))
}

fn same(one: &Metadata, other: &Metadata) -> bool {
    (one.dev(), one.ino()) == (other.dev(), other.ino())
}
