//! Programs are run to their end, whatever they read and write.

use crate::folder::Folder;
use crate::program::{Given, Lists, Program, Written};
use std::path::Path;

fn run(program: &str, file: Option<&Path>, input: &[u8]) -> Written {
    let program = Program::new(program.into());
    program.list(Given { file, input }).expect("a run")
}

/// More than pipes hold, in both directions at once.
const LONG: usize = 5_000_000;

#[test]
fn standard_input_and_output_at_once() {
    for length in [0, 1, LONG] {
        let bytes = vec![b'x'; length];
        let written = run("cat", None, &bytes);
        assert_eq!(written.output, bytes);
        assert_eq!(written.errors, b"");
    }
}

#[test]
fn a_program_that_reads_nothing() {
    let written = run("true", None, &vec![0; LONG]);
    assert_eq!(written.output, b"");
    assert_eq!(written.errors, b"");
}

#[test]
fn a_file() {
    let folder = Folder::new().expect("a folder");
    let file = folder.hold(b"in a file").expect("a file");
    assert_eq!(run("cat", Some(&file), b"").output, b"in a file");
    let file = folder.hold(b"again").expect("a file");
    assert_eq!(run("cat", Some(&file), b"").output, b"again");
    let missing = run("cat", Some(&folder.file("missing")), b"");
    assert_eq!(missing.output, b"");
    assert!(missing.errors.ends_with(b"\n"));
}

#[test]
fn a_folder_goes_with_its_files() {
    let folder = Folder::new().expect("a folder");
    let file = folder.hold(b"in a file").expect("a file");
    let path = folder.path().to_path_buf();
    assert!(file.exists());
    drop(folder);
    assert!(!path.exists());
}

#[test]
fn a_program_that_is_not_there() {
    let program = Program::new("no/such/program".into());
    let given = Given {
        file: None,
        input: b"",
    };
    assert!(program.list(given).is_err());
    assert!(crate::run::run(&program).is_err());
}
