//! Files that can't be read: one line on standard error, nothing on standard
//! output.

use crate::by_hand;
use crate::difference::of_written;
use crate::folder::Folder;
use crate::program::{Given, Lists, Written};
use std::fs::{self, File, Permissions};
use std::io;
use std::path::{Path, PathBuf};
use tally::Tally;

pub fn check(program: &dyn Lists, folder: &Folder) -> io::Result<Tally> {
    let missing = folder.file("no such file");
    let inside = missing.join("image");
    let mut files = vec![
        ("a file that doesn't exist", missing),
        ("a file in a folder that doesn't exist", inside),
        ("a folder", folder.path().to_path_buf()),
    ];
    if let Some(file) = without_permission(folder)? {
        files.push(("a file without permission", file));
    }
    let mut tally = Tally::default();
    for (name, file) in files {
        tally.count(is_one_line(program, name, &file)?);
    }
    Ok(tally)
}

fn is_one_line(program: &dyn Lists, name: &str, file: &Path) -> io::Result<bool> {
    // An image on standard input must not stand in for the file.
    let written = program.list(Given {
        file: Some(file),
        input: &by_hand::any(),
    })?;
    let Written { output, errors } = &written;
    let newlines = errors.iter().filter(|byte| **byte == b'\n').count();
    let held = output.is_empty() && newlines == 1 && errors.ends_with(b"\n");
    if !held {
        println!("FAILED: {name}\n{}", of_written(&written).join("\n"));
    }
    Ok(held)
}

/// A file that this process may not read; nothing where it may read all, as the
/// system's administrator may.
fn without_permission(folder: &Folder) -> io::Result<Option<PathBuf>> {
    let file = folder.file("without permission");
    fs::write(&file, by_hand::any())?;
    fs::set_permissions(&file, no_permissions())?;
    Ok(File::open(&file).is_err().then_some(file))
}

fn no_permissions() -> Permissions {
    std::os::unix::fs::PermissionsExt::from_mode(0o000)
}
