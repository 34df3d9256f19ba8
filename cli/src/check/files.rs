//! The files that are to be checked.

use crate::arguments::Arguments;
use crate::failure::Failure;
use crate::lists;
use std::ffi::{OsStr, OsString};
use std::fs::{self, DirEntry};
use std::io;
use std::os::unix::ffi::OsStrExt;
use std::path::Path;

/// A file, or a folder that could not be gone through.
pub struct Listed {
    pub name: OsString,
    pub unread: Option<io::Error>,
}

/// The operands, then those that `--files-from` names. With `--recursive` a
/// folder stands for the files in it.
pub fn of(arguments: &Arguments) -> Result<Vec<Listed>, Failure> {
    let mut names = arguments.operands().to_vec();
    match arguments.value("--files-from") {
        Some(list) => names.extend(in_list(list, separator(arguments))?),
        None if arguments.has("--null") => {
            return Err(arguments.wrong("--null needs --files-from"));
        }
        None if names.is_empty() => return Err(arguments.missing("FILE")),
        None => {}
    }
    let mut files = Vec::new();
    for name in names {
        match arguments.has("--recursive") && name != "-" && Path::new(&name).is_dir() {
            true => add_folder(Path::new(&name), &mut files),
            false => files.push(Listed::file(name)),
        }
    }
    Ok(files)
}

fn separator(arguments: &Arguments) -> u8 {
    match arguments.has("--null") {
        true => 0,
        false => b'\n',
    }
}

fn in_list(list: &OsStr, separator: u8) -> Result<Vec<OsString>, Failure> {
    let text = lists::file(list)?;
    let names = text.split(|byte| *byte == separator);
    let names = names.filter(|name| !name.is_empty());
    Ok(names
        .map(|name| OsStr::from_bytes(name).to_os_string())
        .collect())
}

/// Adds the files in a folder and in its folders, in the order of their names.
fn add_folder(folder: &Path, files: &mut Vec<Listed>) {
    let entries = fs::read_dir(folder).and_then(|entries| entries.collect());
    let mut entries: Vec<DirEntry> = match entries {
        Ok(entries) => entries,
        Err(error) => {
            files.push(Listed {
                name: folder.into(),
                unread: Some(error),
            });
            return;
        }
    };
    entries.sort_by_key(DirEntry::file_name);
    for entry in entries {
        let path = entry.path();
        match entry.file_type() {
            Ok(kind) if kind.is_dir() => add_folder(&path, files),
            _ if is_passed_over(&path) => {}
            _ => files.push(Listed::file(path.into())),
        }
    }
}

/// A pipe, a device or a socket is no upload, and could keep a job waiting. A link
/// to a folder could lead back. A link that leads nowhere is told.
fn is_passed_over(path: &Path) -> bool {
    fs::metadata(path).is_ok_and(|found| !found.is_file())
}

impl Listed {
    fn file(name: OsString) -> Listed {
        Listed { name, unread: None }
    }
}
