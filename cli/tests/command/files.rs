//! Files of all kinds: several at once, unreadable ones, and strange names.

use crate::run::{fails, says, Answer, Folder};
use std::ffi::OsStr;
use std::fs::{self, File, Permissions};
use std::os::unix::ffi::OsStrExt;
use std::os::unix::fs::PermissionsExt;

#[test]
fn all_files_are_checked_and_the_worst_decides() {
    let folder = Folder::with_sample();
    folder.put("empty", b"");
    let answer = folder.nemod(&["check", "nowhere", "empty", "s.drv"]);
    let expected = Answer {
        status: Some(2),
        output: "nowhere: not read: No such file or directory (os error 2)
empty: refused 1: the file has under 64 bytes
s.drv: accepted, 2 segments, 4 sites
3 files: 1 accepted, 1 refused, 1 not read
"
        .to_string(),
        errors: "nemod: nowhere: No such file or directory (os error 2)\n".to_string(),
    };
    assert_eq!(answer, expected);
    assert_eq!(folder.nemod(&["check", "s.drv", "empty"]).status, Some(1));
    assert_eq!(folder.nemod(&["check", "empty", "s.drv"]).status, Some(1));
    assert_eq!(folder.nemod(&["check", "s.drv", "s.drv"]).status, Some(0));
}

/// One file that is not read, for this reason.
#[track_caller]
fn not_read(folder: &Folder, file: &str, reason: &str) {
    let message = format!("nemod: {file}: {reason}\n");
    let line = format!("{file}: not read: {reason}");
    let expected = Answer {
        output: format!("{line}\n1 file: 0 accepted, 0 refused, 1 not read\n"),
        ..fails(&message)
    };
    assert_eq!(folder.nemod(&["check", file]), expected);
    for command in ["info", "list"] {
        assert_eq!(folder.nemod(&[command, file]), fails(&message));
    }
}

#[test]
fn files_that_are_not_read() {
    let folder = Folder::with_sample();
    not_read(&folder, "nowhere", "No such file or directory (os error 2)");
    not_read(&folder, ".", "Is a directory (os error 21)");
    not_read(&folder, "s.drv/x", "Not a directory (os error 20)");
    not_read(&folder, "", "No such file or directory (os error 2)");
}

/// Where the one who runs the tests may read any file, this is not refused.
#[test]
fn a_file_without_permission() {
    let folder = Folder::with_sample();
    let path = folder.path("s.drv");
    fs::set_permissions(&path, Permissions::from_mode(0o000)).expect("permissions");
    match File::open(&path) {
        Err(_) => not_read(&folder, "s.drv", "Permission denied (os error 13)"),
        Ok(_) => assert_eq!(folder.nemod(&["check", "s.drv"]).status, Some(0)),
    }
}

/// A name can neither break lines nor reach the terminal, nor be taken for an
/// option.
#[test]
fn names_of_files() {
    let folder = Folder::new();
    let names: [&[u8]; 3] = [b"a\n\x1B[31m\\b", b"caf\xC3\xA9\xFF", b"--json"];
    let names = names.map(OsStr::from_bytes);
    for name in names {
        folder.put(name, b"");
    }
    let arguments = [&["check", "--"].map(OsStr::new), &names[..]].concat();
    let expected = "a\\x0A\\x1B[31m\\\\b: refused 1: the file has under 64 bytes
caf\\xC3\\xA9\\xFF: refused 1: the file has under 64 bytes
--json: refused 1: the file has under 64 bytes
3 files: 0 accepted, 3 refused, 0 not read
";
    assert_eq!(folder.nemod(&arguments), says(1, expected));
    let missing = OsStr::from_bytes(b"\x07\xFF");
    let message = "nemod: \\x07\\xFF: No such file or directory (os error 2)\n";
    assert_eq!(folder.nemod(&[OsStr::new("list"), missing]), fails(message));
}
