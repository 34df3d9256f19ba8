//! The temporary file that takes the place of another.

use super::same;
use crate::system;
use std::fs::{self, File, Metadata, OpenOptions};
use std::io::{self, ErrorKind, Write};
use std::os::unix::fs::{fchown, MetadataExt};
use std::path::{Path, PathBuf};

/// Names that are tried, one for each run that writes to the folder at a time.
const TRIES: u32 = 1000;

/// It is removed unless it takes the file's place.
pub struct Temporary {
    path: PathBuf,
    place: PathBuf,
    pub loses_owner: bool,
    /// Its lock tells other runs that this one is at work.
    file: File,
}

impl Temporary {
    /// Writes the content beside the place, with the owner and the permissions of
    /// the file that is there.
    pub fn write(place: PathBuf, existing: Option<Metadata>, content: &[u8]) -> io::Result<Self> {
        let (path, file) = create_beside(&place)?;
        let mut temporary = Temporary {
            path,
            place,
            loses_owner: false,
            file,
        };
        let file = &mut temporary.file;
        if let Some(existing) = existing {
            temporary.loses_owner = !takes_owner(file, &existing)?;
            file.set_permissions(existing.permissions())?;
        }
        file.write_all(content)?;
        file.sync_all()?;
        Ok(temporary)
    }

    pub fn commit(self) -> io::Result<()> {
        fs::rename(&self.path, &self.place)
    }
}

impl Drop for Temporary {
    fn drop(&mut self) {
        // After a commit there is none of this name, unless it is another run's.
        if is_at(&self.file, &self.path) {
            // The failure that led here is told, and not that this fails too.
            let _ = fs::remove_file(&self.path);
        }
        system::keep();
    }
}

/// Gives the file the owner and the group of another, as far as rights allow.
fn takes_owner(file: &File, other: &Metadata) -> io::Result<bool> {
    let own = file.metadata()?;
    if (own.uid(), own.gid()) == (other.uid(), other.gid()) {
        return Ok(true);
    }
    let whole = fchown(file, Some(other.uid()), Some(other.gid()));
    if whole.is_err() {
        // A group that one belongs to may be given.
        let _ = fchown(file, None, Some(other.gid()));
    }
    Ok(whole.is_ok())
}

/// A new file in the folder of the place. Its name is short, so that it is no
/// longer than a folder allows where the place's own name is long.
fn create_beside(place: &Path) -> io::Result<(PathBuf, File)> {
    for number in 0..TRIES {
        let path = place.with_file_name(format!(".nemod-{number}.tmp"));
        if let Some(file) = create(&path)? {
            return Ok((path, file));
        }
    }
    Err(io::Error::other("no name is free for a temporary file"))
}

/// A new file of this name, locked; or none if another run has it.
fn create(path: &Path) -> io::Result<Option<File>> {
    let mut options = OpenOptions::new();
    options.write(true).create_new(true);
    let taken = |error: &io::Error| error.kind() == ErrorKind::AlreadyExists;
    let file = match options.open(path) {
        Err(error) if taken(&error) && remove_leftover(path) => options.open(path),
        first => first,
    };
    let file = match file {
        Err(error) if taken(&error) => return Ok(None),
        file => file?,
    };
    system::remove_on_signal(path)?;
    // Before it was locked, another run may have taken it for a leftover.
    let lost = system::try_lock(&file).is_err_and(|error| error.kind() == ErrorKind::WouldBlock);
    match !lost && is_at(&file, path) {
        true => Ok(Some(file)),
        false => {
            system::keep();
            Ok(None)
        }
    }
}

/// Removes a file that no run has locked: the one that made it was killed.
fn remove_leftover(path: &Path) -> bool {
    let regular = fs::symlink_metadata(path).is_ok_and(|found| found.is_file());
    let Some(Ok(file)) = regular.then(|| File::open(path)) else {
        return false;
    };
    system::try_lock(&file).is_ok() && is_at(&file, path) && fs::remove_file(path).is_ok()
}

/// Is this file still the one at the path?
fn is_at(file: &File, path: &Path) -> bool {
    match (file.metadata(), fs::symlink_metadata(path)) {
        (Ok(own), Ok(found)) => same(&own, &found),
        _ => false,
    }
}
