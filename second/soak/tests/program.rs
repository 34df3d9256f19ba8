//! The program itself: its exit status, and how it is stopped from outside.

use std::io::{BufRead, BufReader, Read};
use std::process::{Command, Output, Stdio};

fn soak() -> Command {
    Command::new(env!("CARGO_BIN_EXE_soak"))
}

/// What the program says when it gets this signal once it runs. If it didn't
/// heed it, it would show its progress before it ends by itself.
fn stopped_by(signal: &str) -> (Option<i32>, String) {
    let mut program = soak()
        .args(["--threads", "2", "--seed", "9", "--minutes", "1"])
        .stdout(Stdio::piped())
        .spawn()
        .expect("the program starts");
    let mut said = BufReader::new(program.stdout.take().expect("a pipe"));
    let mut text = String::new();
    said.read_line(&mut text).expect("a first line");
    let kill = Command::new("kill")
        .args([signal, &program.id().to_string()])
        .status();
    assert!(kill.expect("kill runs").success());
    said.read_to_string(&mut text).expect("text");
    let status = program.wait().expect("it ends");
    (status.code(), text)
}

#[test]
fn a_signal_ends_it_cleanly() {
    for signal in ["-INT", "-TERM"] {
        let (status, said) = stopped_by(signal);
        assert_eq!(status, Some(0), "{signal}: {said}");
        assert!(
            said.starts_with("soak --seed 9 --threads 2\nseen "),
            "{said}"
        );
        assert!(said.contains("\naccepted  "), "{said}");
        assert!(said.contains("\nrefusal 25  "), "{said}");
        assert!(said.ends_with(" of 25\nno difference\n"), "{said}");
    }
}

#[test]
fn cases_and_minutes_end_it() {
    for limit in [["--cases", "900"], ["--minutes", "0.001"]] {
        let Output { status, stdout, .. } = soak().args(limit).output().expect("it runs");
        let said = String::from_utf8(stdout).expect("text");
        assert_eq!(status.code(), Some(0), "{said}");
        assert!(said.ends_with("no difference\n"), "{said}");
    }
}

#[test]
fn wrong_options_are_told() {
    let output = soak().args(["--minutes", "0"]).output().expect("it runs");
    assert_eq!(output.status.code(), Some(2));
    assert!(output.stdout.is_empty());
    let message = String::from_utf8(output.stderr).expect("text");
    assert!(message.starts_with("--minutes doesn't take 0\nusage: soak "));
}
