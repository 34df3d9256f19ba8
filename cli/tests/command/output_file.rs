//! `--output`: the file is there whole or is as it was.

use crate::module::{Module, Segment};
use crate::run::{fails, says, Answer, Folder};
use std::fs::{self, OpenOptions, Permissions};
use std::os::unix::fs::{chown, symlink, MetadataExt, PermissionsExt};
use std::os::unix::process::{CommandExt, ExitStatusExt};
use std::process::{Child, Command, Stdio};
use std::thread;
use std::time::Duration;

/// The stored bytes of the sample's first segment.
const STORED: [u8; 8] = [0, 0, 6, 0, 0xAA, 0xBB, 0xFF, 0xFF];
const PREPARED: [u8; 10] = [0, 0, 0x34, 0x12, 0xAA, 0xBB, 0x34, 0x12, 0, 0];

fn prepare(folder: &Folder, number: &str, options: &[&str]) -> Answer {
    let lists = ["--selectors", "1,2", "--answers", "3,4"];
    folder.nemod(&[&["prepare", "s.drv", number], options, &lists].concat())
}

#[test]
fn a_new_file() {
    let folder = Folder::with_sample();
    assert_eq!(prepare(&folder, "1", &["-o", "out"]), says(0, "2 sites\n"));
    assert_eq!(folder.get("out"), PREPARED);
    assert_eq!(folder.names(), ["out", "s.drv"]);
}

#[test]
fn a_new_file_that_is_shown_too() {
    let folder = Folder::with_sample();
    let shown = "\
0000  00 00 34*12*AA BB 34*12*00 00                    |..4...4...|
* changed by a fixup, + in a fixup's span and as stored
2 sites
";
    let answer = prepare(&folder, "1", &["-o", "out", "--show"]);
    assert_eq!(answer, says(0, shown));
    assert_eq!(folder.get("out"), PREPARED);
}

/// It keeps its permissions, and a link to it stays a link.
#[test]
fn a_file_that_is_replaced() {
    let folder = Folder::with_sample();
    folder.put("out", &[7; 100]);
    let private = Permissions::from_mode(0o600);
    fs::set_permissions(folder.path("out"), private).expect("permissions");
    symlink("out", folder.path("link")).expect("a link");
    assert_eq!(prepare(&folder, "1", &["-o", "link"]), says(0, "2 sites\n"));
    assert_eq!(folder.get("out"), PREPARED);
    assert_eq!(folder.names(), ["link", "out", "s.drv"]);
    let found = fs::symlink_metadata(folder.path("out")).expect("a file");
    assert_eq!(found.permissions().mode() & 0o777, 0o600);
    let link = fs::symlink_metadata(folder.path("link")).expect("a link");
    assert!(link.is_symlink());
}

/// The file that is read is not replaced, whatever it is called, as `cp` does.
#[test]
fn the_module_is_not_replaced() {
    let folder = Folder::with_sample();
    let image = folder.get("s.drv");
    symlink("s.drv", folder.path("link")).expect("a link");
    fs::hard_link(folder.path("s.drv"), folder.path("hard")).expect("a link");
    for out in ["s.drv", "./s.drv", "link", "hard"] {
        let message = format!("nemod: {out}: it is the file that is read\n");
        assert_eq!(prepare(&folder, "1", &["-o", out]), fails(&message));
        for command in ["segment", "resource"] {
            let answer = folder.nemod(&[command, "s.drv", "1", "-o", out]);
            assert_eq!(answer, fails(&message));
        }
    }
    let redirected = folder.shell("nemod segment - 1 -o s.drv <s.drv");
    assert_eq!(
        redirected,
        fails("nemod: s.drv: it is the file that is read\n")
    );
    assert_eq!(folder.get("s.drv"), image);
}

/// The longest name that a folder allows.
#[test]
fn a_long_name() {
    let folder = Folder::with_sample();
    let name = "x".repeat(255);
    assert_eq!(prepare(&folder, "1", &["-o", &name]), says(0, "2 sites\n"));
    assert_eq!(folder.get(&name), PREPARED);
}

/// Nothing is written for a refusal or for a list that is too short.
#[test]
fn kept_when_refused() {
    let folder = Folder::new();
    let mut image = Module::sample().image();
    image[290] = 3; // the site of the second record
    folder.put("s.drv", &image);
    folder.put("out", b"kept");
    let refused = says(1, "refused 25 at record 2: span meets an earlier one\n");
    assert_eq!(prepare(&folder, "2", &["-o", "out"]), refused);
    let short = folder.nemod(&["prepare", "s.drv", "1", "-o", "out"]);
    assert_eq!(short.status, Some(2));
    assert_eq!(folder.get("out"), b"kept");
    assert_eq!(folder.names(), ["out", "s.drv"]);
}

/// All else is written before the file takes its place, so where that fails the
/// file is as it was.
#[test]
fn kept_when_standard_output_is_full() {
    let folder = Folder::with_sample();
    folder.put("out", b"kept");
    let full = OpenOptions::new().write(true).open("/dev/full");
    let arguments = ["prepare", "s.drv", "1", "-o", "out", "--selectors", "1,2"];
    let mut command = folder.command(&arguments);
    command
        .args(["--answers", "1"])
        .stdout(full.expect("a device"));
    let answer: Answer = command.output().expect("a command that runs").into();
    let message = "nemod: standard output: No space left on device (os error 28)\n";
    assert_eq!(answer, fails(message));
    assert_eq!(folder.get("out"), b"kept");
    assert_eq!(folder.names(), ["out", "s.drv"]);
}

/// A folder, and places where no file can be.
#[test]
fn places_that_cannot_be_written() {
    let folder = Folder::with_sample();
    fs::create_dir(folder.path("folder")).expect("a folder");
    symlink("ring", folder.path("gnir")).expect("a link");
    symlink("gnir", folder.path("ring")).expect("a link");
    symlink("nowhere/out", folder.path("lost")).expect("a link");
    let table = [
        ("nowhere/out", "No such file or directory (os error 2)"),
        ("s.drv/out", "Not a directory (os error 20)"),
        ("folder", "not a regular file"),
        ("new/", "No such file or directory (os error 2)"),
        ("", "No such file or directory (os error 2)"),
        ("ring", "Too many levels of symbolic links (os error 40)"),
        ("lost", "No such file or directory (os error 2)"),
        ("/dev/full", "No space left on device (os error 28)"),
    ];
    for (place, reason) in table {
        let answer = prepare(&folder, "1", &["-o", place]);
        assert_eq!(answer.errors, format!("nemod: {place}: {reason}\n"));
        assert_eq!(answer.status, Some(2));
    }
    assert_eq!(folder.names(), ["folder", "gnir", "lost", "ring", "s.drv"]);
}

/// A link that leads to nothing is followed, and stays a link.
#[test]
fn dangling_links() {
    let folder = Folder::with_sample();
    fs::create_dir(folder.path("folder")).expect("a folder");
    symlink("folder/out", folder.path("link")).expect("a link");
    symlink("link", folder.path("second")).expect("a link");
    assert_eq!(
        prepare(&folder, "1", &["-o", "second"]),
        says(0, "2 sites\n")
    );
    assert_eq!(folder.get("folder/out"), PREPARED);
    for link in ["link", "second"] {
        let found = fs::symlink_metadata(folder.path(link)).expect("a link");
        assert!(found.is_symlink());
    }
    assert_eq!(folder.names(), ["folder", "link", "s.drv", "second"]);
}

/// What leads to standard output is standard output, where the bytes stand alone;
/// and links of `/proc` are never replaced.
#[test]
fn devices() {
    let folder = Folder::with_sample();
    symlink("/dev/stdout", folder.path("link")).expect("a link");
    let prepare = "nemod prepare s.drv 1 --selectors 1,2 --answers 3";
    let table = [
        // A pipe, a file, and a file whose name is gone.
        (format!("{prepare} -o /dev/stdout | cat >out"), ""),
        (format!("{prepare} -o link | cat >out"), ""),
        (format!("{prepare} -o /dev/stdout >out"), ""),
        (format!("{prepare} -o /dev/fd/1 >out"), ""),
        (format!("{prepare} -o - >out"), ""),
        (format!("{prepare} -o/dev/fd/7 7>out"), "2 sites\n"),
        (
            format!("exec 7>gone 8<gone; rm gone; {prepare} -o /dev/fd/7; cat <&8 >out"),
            "2 sites\n",
        ),
        (
            format!("mkfifo pipe; cat pipe >out & {prepare} --output=pipe; wait; rm pipe"),
            "2 sites\n",
        ),
    ];
    for (line, output) in table {
        assert_eq!(folder.shell(&line), says(0, output), "{line}");
        assert_eq!(folder.get("out"), PREPARED, "{line}");
        fs::remove_file(folder.path("out")).expect("a file");
    }
    let nowhere = folder.shell(&format!("{prepare} -o /dev/null"));
    assert_eq!(nowhere, says(0, "2 sites\n"));
    assert!(!fs::symlink_metadata("/dev/null")
        .expect("a device")
        .is_file());
    assert_eq!(folder.names(), ["link", "s.drv"]);
}

/// Starts a run that waits with its temporary file, since nobody reads its output.
fn waiting(folder: &Folder) -> Child {
    let segment = Segment {
        stored: vec![1; 65_535],
        allocation: 65_535,
        ..Segment::default()
    };
    let module = Module {
        segments: vec![segment],
        ..Module::default()
    };
    folder.put("long.drv", &module.image());
    // SIGQUIT would leave a file beside the others.
    let line = "ulimit -c 0; exec \"$0\" prepare long.drv 1 --selectors=1 --show -o out";
    let mut command = Command::new("bash");
    command.args(["-c", line, env!("CARGO_BIN_EXE_nemod")]);
    command.current_dir(folder.path(".")).stdout(Stdio::piped());
    let child = command.spawn();
    let child = child.expect("a command that runs");
    // The file is written when signals are caught.
    let written =
        || fs::metadata(folder.path(".nemod-0.tmp")).is_ok_and(|found| found.len() == 65_535);
    while !written() {
        thread::sleep(Duration::from_millis(1));
    }
    child
}

fn end(mut child: Child, signal: &str) -> Option<i32> {
    let id = child.id().to_string();
    let killed = Command::new("kill").args([signal, &id]).status();
    assert!(killed.expect("a command that runs").success());
    child.wait().expect("a command that ends").signal()
}

/// A signal that can be caught leaves nothing, and ends the run as it would.
#[test]
fn a_run_that_is_stopped() {
    for (signal, number) in [("-HUP", 1), ("-INT", 2), ("-QUIT", 3), ("-TERM", 15)] {
        let folder = Folder::new();
        folder.put("out", b"kept");
        let ended = end(waiting(&folder), signal);
        assert_eq!(ended, Some(number));
        assert_eq!(folder.names(), ["long.drv", "out"]);
        assert_eq!(folder.get("out"), b"kept");
    }
}

/// What a killed run leaves is removed by the next one. A run that is at work keeps
/// its file.
#[test]
fn leftovers() {
    let folder = Folder::with_sample();
    let ended = end(waiting(&folder), "-KILL");
    assert_eq!(ended, Some(9));
    assert_eq!(folder.names(), [".nemod-0.tmp", "long.drv", "s.drv"]);
    assert_eq!(prepare(&folder, "1", &["-o", "out"]), says(0, "2 sites\n"));
    assert_eq!(folder.names(), ["long.drv", "out", "s.drv"]);
    let at_work = waiting(&folder);
    assert_eq!(prepare(&folder, "1", &["-o", "out"]), says(0, "2 sites\n"));
    assert_eq!(folder.names(), [".nemod-0.tmp", "long.drv", "out", "s.drv"]);
    assert_eq!(folder.get("out"), PREPARED);
    end(at_work, "-TERM");
    assert_eq!(folder.names(), ["long.drv", "out", "s.drv"]);
}

/// Only root can give a file to others, so only root can test it.
#[test]
fn the_owner_is_kept() {
    let folder = Folder::with_sample();
    folder.put("out", b"another's");
    if chown(folder.path("out"), Some(65_534), Some(65_534)).is_err() {
        return;
    }
    assert_eq!(prepare(&folder, "1", &["-o", "out"]), says(0, "2 sites\n"));
    let found = fs::metadata(folder.path("out")).expect("a file");
    assert_eq!((found.uid(), found.gid()), (65_534, 65_534));
    assert_eq!(folder.get("out"), PREPARED);
}

/// Where it can't be kept, that is said, and the bytes are there.
#[test]
fn an_owner_that_is_not_kept() {
    // Others may not reach the folder of the tests.
    let folder = Folder::in_temporary_files();
    folder.put("s.drv", &Module::sample().image());
    folder.put("out", b"root's");
    // By another process: one that other tests start while this one has the copy
    // open for writing would keep it so, and then it could not be run.
    let copied = Command::new("cp")
        .arg(env!("CARGO_BIN_EXE_nemod"))
        .arg(folder.path("nemod"))
        .status();
    assert!(copied.expect("a command that runs").success());
    if chown(folder.path("."), Some(65_534), None).is_err() {
        return;
    }
    let mut command = Command::new(folder.path("nemod"));
    command.args(["segment", "s.drv", "1", "-o", "out"]);
    command
        .uid(65_534)
        .gid(65_534)
        .current_dir(folder.path("."));
    let answer: Answer = command.output().expect("a command that runs").into();
    let message = "nemod: out: its owner or group could not be kept\n";
    assert_eq!((answer.status, answer.errors.as_str()), (Some(0), message));
    assert_eq!(folder.get("out"), STORED);
}
