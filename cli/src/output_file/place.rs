//! Where a file's content goes.

use super::same;
use std::fs::{self, Metadata};
use std::io::{self, ErrorKind};
use std::os::unix::ffi::OsStrExt;
use std::os::unix::fs::FileTypeExt;
use std::path::{Path, PathBuf};

/// Links that are followed at most, as the system does.
const LINKS: u32 = 40;

pub enum Place {
    /// A regular file or none, with all links followed.
    Replaced {
        path: PathBuf,
        existing: Option<Metadata>,
    },
    /// What can be written to and not replaced: a pipe, a character device, or a
    /// file that has no name any more.
    Through(PathBuf),
}

impl Place {
    pub fn of(path: &Path) -> io::Result<Place> {
        match fs::metadata(path) {
            Ok(found) => Place::there(path, found),
            Err(error) if error.kind() == ErrorKind::NotFound => Place::new(path, error),
            Err(error) => Err(error),
        }
    }

    /// A folder, a disk or a socket is neither replaced nor written to.
    fn there(path: &Path, found: Metadata) -> io::Result<Place> {
        let kind = found.file_type();
        if kind.is_file() {
            return Ok(Place::regular(path, found));
        }
        match kind.is_char_device() || kind.is_fifo() {
            true => Ok(Place::Through(path.to_path_buf())),
            false => Err(io::Error::other("not a regular file")),
        }
    }

    /// A link of `/proc` may lead to a file whose name is gone or another's.
    fn regular(path: &Path, found: Metadata) -> Place {
        let named = fs::canonicalize(path).ok();
        let named = named.filter(|name| fs::metadata(name).is_ok_and(|other| same(&found, &other)));
        match named {
            Some(path) => Place::Replaced {
                path,
                existing: Some(found),
            },
            None => Place::Through(path.to_path_buf()),
        }
    }

    /// Nothing is there, or links that lead to nothing: then the file is made
    /// where they lead.
    fn new(path: &Path, missing: io::Error) -> io::Result<Place> {
        let mut path = path.to_path_buf();
        for _ in 0..LINKS {
            match fs::read_link(&path) {
                Ok(target) => path = beside(&path, &target),
                Err(_) => return Place::named(path).ok_or(missing),
            }
        }
        Err(missing)
    }

    /// What has no name can't become a file, and a name that ends with a slash
    /// is a folder's.
    fn named(path: PathBuf) -> Option<Place> {
        let folder = path.as_os_str().as_bytes().ends_with(b"/");
        path.file_name().filter(|_| !folder)?;
        Some(Place::Replaced {
            path,
            existing: None,
        })
    }
}

/// A link's target, which counts from the folder of the link.
fn beside(link: &Path, target: &Path) -> PathBuf {
    link.parent().unwrap_or(Path::new("")).join(target)
}
