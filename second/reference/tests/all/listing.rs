//! The listing and its program.

use crate::build::*;
use crate::examples::{two_segments, P10};
use reference::{list, listing};
use std::io::Write;
use std::process::{Command, Output, Stdio};

const OF_P10: &str = "ordinals 4\n1 1:0010 01\n4 2:0020 03\nend\n";

fn text(image: &[u8]) -> String {
    String::from_utf8(listing(image)).unwrap()
}

#[test]
fn listing_of_p10() {
    assert_eq!(text(&two_segments(&P10)), OF_P10);
}

#[test]
fn listing_of_empty_tables() {
    let empty = "ordinals 0\nend\n";
    assert_eq!(text(&two_segments(&[])), empty);
    assert_eq!(text(&two_segments(&[0])), empty);
    assert_eq!(text(&Build::default().image()), empty);
    assert_eq!(text(&two_segments(&[3, 0, 0])), "ordinals 3\nend\n");
}

#[test]
fn refused_lines() {
    assert_eq!(text(&[]), "refused 1\n");
    assert_eq!(text(&[0; 64]), "refused 3\n");
    assert_eq!(text(&two_segments(&P10[..15])), "refused 12\n");
    assert_eq!(text(&two_segments(&[1, 3, 0, 0, 0, 0])), "refused 13\n");
    assert_eq!(text(&two_segments(&[255, 0].repeat(258))), "refused 14\n");
    let mut image = two_segments(&P10);
    put_word(&mut image, MODULE_COUNT, 0xFFFF);
    assert_eq!(text(&image), "refused 7\n");
}

#[test]
fn too_long_comes_before_any_refusal() {
    let mut image = two_segments(&P10);
    image.resize(65_536, 0);
    assert_eq!(text(&image), OF_P10);
    image.push(0);
    assert_eq!(text(&image), "too long\n");
    assert_eq!(text(&[0; 65_537]), "too long\n");
    assert_eq!(text(&[0; 65_536]), "refused 3\n");
    assert_eq!(text(&vec![0; 16_777_217]), "too long\n");
}

#[test]
fn digits() {
    let build = Build {
        segments: vec![plain(&[1]); 255],
        entry: vec![
            1, 254, 0xAB, 0xEF, 0xCD, 9, 0, 1, 255, 0, 0xCD, 0x3F, 255, 0, 0, 0,
        ],
        ..Build::default()
    };
    let expected = "ordinals 11\n1 254:CDEF AB\n11 255:0000 00\nend\n";
    assert_eq!(text(&build.image()), expected);
}

/// As much of P10's listing as fits; the rest of the room stays as it came.
#[test]
fn any_room() {
    let image = two_segments(&P10);
    let whole = OF_P10.len();
    for length in 0..=whole + 5 {
        let mut room = vec![0xEE; length];
        assert_eq!(list(&image, &mut room), whole);
        let fits = length.min(whole);
        assert_eq!(&room[..fits], &OF_P10.as_bytes()[..fits]);
        assert!(room[fits..].iter().all(|byte| *byte == 0xEE));
    }
}

/// The exported listing never says `too long`.
#[test]
fn images_of_any_length() {
    let mut image = two_segments(&P10);
    for (length, text) in [
        (65_536, OF_P10),
        (65_537, OF_P10),
        (16_777_216, OF_P10),
        (16_777_217, "refused 2\n"),
    ] {
        image.resize(length, 0);
        let mut room = [0; 100];
        let written = list(&image, &mut room);
        assert_eq!(&room[..written], text.as_bytes());
    }
    let mut room = [0; 10];
    assert_eq!(list(&[0; 65_537], &mut room), 10);
    assert_eq!(&room, b"refused 3\n");
}

/// Runs the program on a file, or on standard input without one.
fn run(file: Option<&str>, input: &[u8]) -> Output {
    let mut child = Command::new(env!("CARGO_BIN_EXE_reference-listing"))
        .args(file)
        .stdin(Stdio::piped())
        .stdout(Stdio::piped())
        .stderr(Stdio::piped())
        .spawn()
        .unwrap();
    // The program may end before it has read all of a long input.
    let _ = child.stdin.take().unwrap().write_all(input);
    child.wait_with_output().unwrap()
}

#[test]
fn program_reads_standard_input() {
    let mut image = two_segments(&P10);
    let done = run(None, &image);
    assert_eq!(done.stdout, OF_P10.as_bytes());
    assert_eq!(done.stderr, b"");
    assert_eq!(run(None, &[]).stdout, b"refused 1\n");
    image.resize(65_537, 0);
    assert_eq!(run(None, &image).stdout, b"too long\n");
    image.resize(200_000, 0);
    assert_eq!(run(None, &image).stdout, b"too long\n");
}

#[test]
fn program_reads_a_file() {
    let file = concat!(env!("CARGO_TARGET_TMPDIR"), "/p10.exe");
    std::fs::write(file, two_segments(&P10)).unwrap();
    let done = run(Some(file), b"");
    assert_eq!(done.stdout, OF_P10.as_bytes());
    assert_eq!(done.stderr, b"");
}

#[test]
fn a_file_that_cannot_be_read() {
    let directory = env!("CARGO_TARGET_TMPDIR");
    let missing = concat!(env!("CARGO_TARGET_TMPDIR"), "/no-such-file");
    for file in [missing, directory] {
        let done = run(Some(file), b"");
        assert_eq!(done.stdout, b"");
        let lines = done.stderr.iter().filter(|&&byte| byte == b'\n').count();
        assert_eq!(lines, 1);
        assert_eq!(done.stderr.last(), Some(&b'\n'));
    }
}
