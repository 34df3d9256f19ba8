//! The progress.

use crate::progress::{Progress, Shown};
use std::time::Duration;

fn at(seconds: u64, cases: u64, refusals: impl IntoIterator<Item = u32>) -> Progress {
    Progress {
        time: Duration::from_secs(seconds),
        cases,
        refusals: refusals.into_iter().collect(),
        all_refusals: 25,
    }
}

#[test]
fn the_line() {
    for (progress, line) in [
        (
            at(100, 12_345_678, 1..=25),
            "00:01:40  12,345,678 cases  123,456/s  refusals seen: 1-25 of 25",
        ),
        (
            at(0, 0, []),
            "00:00:00  0 cases  0/s  refusals seen: none of 25",
        ),
        (
            at(59, 999 * 59, [8]),
            "00:00:59  58,941 cases  999/s  refusals seen: 8 of 25",
        ),
        (
            at(3_600, 3_600_000, [1, 2, 3, 5, 7, 8]),
            "01:00:00  3,600,000 cases  1,000/s  refusals seen: 1-3, 5, 7-8 of 25",
        ),
        (
            at(360_061, 360_061, [25]),
            "100:01:01  360,061 cases  1/s  refusals seen: 25 of 25",
        ),
    ] {
        assert_eq!(progress.to_string(), line);
    }
}

/// What is written when the progress is offered every half second.
fn written(shown: impl Fn(&mut Vec<u8>) -> Shown<&mut Vec<u8>>, halves: u32) -> String {
    let mut out = Vec::new();
    let mut shown = shown(&mut out);
    for half in 1..=halves {
        let mut progress = at(0, 7, [3]);
        progress.time = half * Duration::from_millis(500);
        shown.show(&progress).expect("room");
    }
    shown.say("the end").expect("room");
    String::from_utf8(out).expect("text")
}

#[test]
fn a_terminal_has_one_line() {
    let text = written(|out| Shown::in_place(out), 5);
    assert_eq!(text.lines().count(), 1);
    let shown: Vec<&str> = text.split("\r\x1b[K").collect();
    assert_eq!(shown.len(), 4);
    assert!(shown[1].starts_with("00:00:01  7 cases"), "{text}");
    assert!(shown[2].starts_with("00:00:02  7 cases"), "{text}");
    assert_eq!(shown[3], "the end\n");
}

#[test]
fn a_file_has_a_line_now_and_then() {
    assert_eq!(written(|out| Shown::by_lines(out), 59), "the end\n");
    let text = written(|out| Shown::by_lines(out), 121);
    let lines: Vec<&str> = text.lines().collect();
    assert_eq!(lines.len(), 3);
    assert!(lines[0].starts_with("00:00:30  7 cases"), "{text}");
    assert!(lines[1].starts_with("00:01:00  7 cases"), "{text}");
    assert_eq!(lines[2], "the end");
}
