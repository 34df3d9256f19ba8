//! Standard input, output and error.

use crate::module::Module;
use crate::run::{fails, says, Answer, Folder};
use std::fs::{File, OpenOptions};
use std::io::Write;
use std::process::{Command, Stdio};

const ACCEPTED: &str = "-: accepted, 2 segments, 4 sites
1 file: 1 accepted, 0 refused, 0 not read
";

fn answer(command: &mut Command) -> Answer {
    let output = command.output();
    output.expect("a command that runs").into()
}

fn full() -> File {
    let full = OpenOptions::new().write(true).open("/dev/full");
    full.expect("a device")
}

#[test]
fn standard_input() {
    let folder = Folder::with_sample();
    let sample = || File::open(folder.path("s.drv")).expect("a file");
    let ask = |arguments: &[&str]| answer(folder.command(arguments).stdin(sample()));
    assert_eq!(ask(&["check", "-"]), says(0, ACCEPTED));
    let listing = "ordinals 4\n1 1:0010 01\n4 2:0020 03\nend\n";
    assert_eq!(ask(&["list", "-"]), says(0, listing));
    let found = "ordinal 1: segment 1, offset 0x0010, flag 0x01\n";
    assert_eq!(ask(&["ordinal", "-", "1"]), says(0, found));
}

/// An empty file is refused. What could not be read is not, since a job would
/// mark a good row refused.
#[test]
fn standard_input_that_is_not_read() {
    let folder = Folder::with_sample();
    let not_read = |reason: &str| Answer {
        status: Some(2),
        output: format!("-: not read: {reason}\n1 file: 0 accepted, 0 refused, 1 not read\n"),
        errors: format!("nemod: -: {reason}\n"),
    };
    let empty = "-: refused 1: the file has under 64 bytes
1 file: 0 accepted, 1 refused, 0 not read
";
    let table = [
        ("nemod check - </dev/null", says(1, empty)),
        ("nemod check - <&-", not_read("standard input is closed")),
        (
            "nemod check - 0>out",
            not_read("Bad file descriptor (os error 9)"),
        ),
        ("nemod check - <.", not_read("Is a directory (os error 21)")),
        (
            "nemod list - <&-",
            fails("nemod: -: standard input is closed\n"),
        ),
        (
            "nemod check --files-from - <&-",
            fails("nemod: -: standard input is closed\n"),
        ),
    ];
    for (line, expected) in table {
        assert_eq!(folder.shell(line), expected, "{line}");
    }
}

/// It holds one file, and is not taken for a second one without bytes.
#[test]
fn standard_input_twice() {
    let expected = Answer {
        status: Some(2),
        output: "-: accepted, 2 segments, 4 sites
-: not read: standard input was read before
2 files: 1 accepted, 0 refused, 1 not read
"
        .to_string(),
        errors: "nemod: -: standard input was read before\n".to_string(),
    };
    assert_eq!(
        Folder::with_sample().shell("nemod check - - <s.drv"),
        expected
    );
}

/// A pipe with a name is waited for, as other commands do.
#[test]
fn a_pipe_that_is_written_later() {
    let folder = Folder::with_sample();
    let line = "mkfifo pipe; (sleep 0.2; cat s.drv >pipe) & nemod check pipe";
    let expected = ACCEPTED.replace("-:", "pipe:");
    assert_eq!(folder.shell(line), says(0, &expected));
}

/// It is read in as many pieces as it comes.
#[test]
fn standard_input_in_pieces() {
    let folder = Folder::new();
    let mut command = folder.command(&["check", "-"]);
    command.stdin(Stdio::piped()).stdout(Stdio::piped());
    let mut child = command.spawn().expect("a command that runs");
    let mut input = child.stdin.take().expect("a pipe");
    for piece in Module::sample().image().chunks(100) {
        input.write_all(piece).expect("a pipe that is read");
        input.flush().expect("a pipe that is read");
    }
    drop(input);
    let output = child.wait_with_output().expect("a command that ends");
    assert_eq!(Answer::from(output), says(0, ACCEPTED));
}

#[test]
fn endless_standard_input() {
    let folder = Folder::new();
    let zeros = || File::open("/dev/zero").expect("a device");
    let expected = "-: refused 2: the file has over 16,777,216 bytes
1 file: 0 accepted, 1 refused, 0 not read
";
    let checked = answer(folder.command(&["check", "-"]).stdin(zeros()));
    assert_eq!(checked, says(1, expected));
    let listed = answer(folder.command(&["list", "-"]).stdin(zeros()));
    assert_eq!(listed, says(1, "refused 2\n"));
    let shown = folder.nemod(&["info", "/dev/zero"]);
    let expected = "/dev/zero: refused 2: the file has over 16,777,216 bytes\n";
    assert!(shown.output.starts_with(expected), "{}", shown.output);
}

/// Whoever closes the pipe is told nothing. The command waits for its input, so
/// the pipe is closed before anything is written.
#[test]
fn closed_output() {
    let folder = Folder::new();
    for arguments in [
        &["check", "-"][..],
        &["check", "--json", "-"],
        &["info", "-"],
    ] {
        let mut command = folder.command(arguments);
        command.stdin(Stdio::piped()).stdout(Stdio::piped());
        let mut child = command.stderr(Stdio::piped()).spawn();
        let child = child.as_mut().expect("a command that runs");
        drop(child.stdout.take());
        drop(child.stdin.take());
        let status = child.wait().expect("a command that ends");
        let errors = std::io::read_to_string(child.stderr.take().expect("a pipe"));
        let errors = errors.expect("text alone");
        assert_eq!((status.code(), errors.as_str()), (Some(2), ""));
    }
}

/// The verdict can't be told then. With `--quiet` the status is all there is to
/// tell.
#[test]
fn no_output() {
    let folder = Folder::with_sample();
    let closed = fails("nemod: standard output: it is closed\n");
    let unwritable = fails("nemod: standard output: Bad file descriptor (os error 9)\n");
    let table = [
        ("nemod check s.drv >&-", closed),
        ("nemod check s.drv 1<s.drv", unwritable),
        ("nemod check -q s.drv >&-", says(0, "")),
        ("nemod check s.drv >/dev/null", says(0, "")),
        // As some programs open what they don't look at.
        ("nemod check s.drv 1<>/dev/null", says(0, "")),
    ];
    for (line, expected) in table {
        assert_eq!(folder.shell(line), expected, "{line}");
    }
    let commands = [
        "--help",
        "-V",
        "info s.drv",
        "list s.drv",
        "segment s.drv 1",
        "explain",
    ];
    for command in commands {
        let line = format!("nemod {command} >&-");
        assert_eq!(folder.shell(&line).status, Some(2), "{line}");
    }
}

#[test]
fn full_output() {
    let folder = Folder::with_sample();
    let message = "nemod: standard output: No space left on device (os error 28)\n";
    let all = [
        &["--help"][..],
        &["--version"],
        &["check", "s.drv"],
        &["check", "--json", "s.drv"],
        &["info", "s.drv"],
        &["list", "s.drv"],
        &["segment", "s.drv", "1"],
        &["segment", "s.drv", "9"],
        &["explain"],
        &[
            "prepare",
            "s.drv",
            "1",
            "--show",
            "--selectors=1,2",
            "--answers=1",
        ],
        &[
            "prepare",
            "s.drv",
            "1",
            "-o",
            "-",
            "--selectors=1,2",
            "--answers=1",
        ],
    ];
    for arguments in all {
        let answer = answer(folder.command(arguments).stdout(full()));
        assert_eq!(answer, fails(message), "{arguments:?}");
    }
}

/// Then the status alone tells.
#[test]
fn full_standard_error() {
    let folder = Folder::new();
    let wrong = answer(folder.command(&["chek"]).stderr(full()));
    assert_eq!(wrong, fails(""));
    let unread = answer(folder.command(&["list", "nowhere"]).stderr(full()));
    assert_eq!(unread, fails(""));
}
