//! A folder for the images that are handed over as files.

use std::path::{Path, PathBuf};
use std::sync::atomic::{AtomicU32, Ordering};
use std::{env, fs, io, process};

/// Tells the folders of one process apart.
static MADE: AtomicU32 = AtomicU32::new(0);

/// It is removed with all that is in it when this goes.
pub struct Folder {
    path: PathBuf,
}

impl Folder {
    pub fn new() -> io::Result<Self> {
        let number = MADE.fetch_add(1, Ordering::Relaxed);
        let name = format!("listings-{}-{number}", process::id());
        let path = env::temp_dir().join(name);
        fs::create_dir_all(&path)?;
        Ok(Folder { path })
    }

    pub fn path(&self) -> &Path {
        &self.path
    }

    /// The path of a file in it.
    pub fn file(&self, name: &str) -> PathBuf {
        self.path.join(name)
    }

    /// Puts the bytes into the image's file, over those of the last image.
    pub fn hold(&self, image: &[u8]) -> io::Result<PathBuf> {
        let file = self.file("image");
        fs::write(&file, image)?;
        Ok(file)
    }
}

impl Drop for Folder {
    fn drop(&mut self) {
        // What can't be removed is left to the system's own cleaning.
        let _ = fs::remove_dir_all(&self.path);
    }
}
