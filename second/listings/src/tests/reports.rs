//! The report of a difference.

use crate::difference::{of_listing, of_shortened};
use crate::program::Written;

fn written(output: &str, errors: &str) -> Written {
    Written {
        output: output.into(),
        errors: errors.into(),
    }
}

#[test]
fn the_first_differing_line() {
    let lines = of_listing(&written("a\nb\nc\n", ""), b"a\nx\nc\n");
    assert_eq!(
        lines,
        [
            "  6 bytes were written for 6; they differ in line 2",
            "  program:   \"b\\n\"",
            "  reference: \"x\\n\"",
        ]
    );
}

#[test]
fn an_output_that_ends_early() {
    let lines = of_listing(&written("a\n", ""), b"a\nb\n");
    assert!(lines[0].ends_with("line 2"));
    assert!(lines[1].ends_with("nothing"));
    let lines = of_listing(&written("a\nb", ""), b"a\nb\n");
    assert!(lines[1].ends_with("\"b\""));
    assert!(lines[2].ends_with("\"b\\n\""));
}

#[test]
fn standard_error_is_shown() {
    let lines = of_listing(&written("a\n", "oh\n"), b"a\n");
    assert_eq!(lines, ["  standard error: \"oh\\n\""]);
    let lines = of_listing(&written("a\n", &"o".repeat(1_000)), b"a\n");
    assert!(lines[0].len() < 200);
}

#[test]
fn a_long_image_is_not_printed_whole() {
    let lines = of_shortened(&[0xAB; 65_536]);
    assert!(lines.len() < 110);
    assert!(lines
        .last()
        .is_some_and(|line| line.contains("length 65536")));
}
