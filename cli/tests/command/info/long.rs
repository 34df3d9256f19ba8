//! Long tables and long images.

use super::sections;
use crate::module::{Module, Segment};
use crate::run::Folder;

/// The names of an image of so many bytes: `names` strings of two letters, with
/// bytes in one that a terminal could obey.
fn names(names: usize, length: usize) -> Vec<u8> {
    let mut resident = b"\x02\x1B\xE9\x00\x00".repeat(names);
    resident.push(0);
    let mut image = Module {
        resident,
        ..Module::default()
    }
    .image();
    image.resize(length, 0);
    image
}

#[test]
fn rows_have_a_limit() {
    let row = |number| format!("  {number:>7}        0  \\x1B\\xE9\n");
    let expected = |rows: usize, more: &str| {
        let rows: String = (1..=rows).map(row).collect();
        format!("\nNames\n   number  ordinal  name\n{rows}{more}\nModules\n")
    };
    let more = "  There are more. --all shows them.\n";
    let shown = |image: &[u8], options: &[&str], names: &str| {
        let (status, text) = sections(image, options);
        assert_eq!(status, Some(0));
        assert!(text.contains(names), "{text}");
    };
    let longest = 16_777_216;
    shown(&names(16, longest), &[], &expected(16, ""));
    shown(&names(17, longest), &[], &expected(16, more));
    shown(&names(17, longest), &["--all"], &expected(17, ""));
    shown(&names(17, longest - 1_000_000), &[], &expected(17, ""));
    shown(&names(4_096, 65_536), &[], &expected(4_096, ""));
    shown(&names(4_097, 65_536), &[], &expected(4_096, more));
    shown(&names(4_097, 65_536), &["--all"], &expected(4_097, ""));
}

/// In JSON it is a member that there are more.
#[test]
fn rows_have_a_limit_in_json() {
    let folder = Folder::new();
    for (length, more) in [(4_096, false), (4_097, true)] {
        folder.put("file", &names(length, 65_536));
        let answer = folder.nemod(&["info", "--json", "file"]);
        assert_eq!(answer.output.matches("\"name\":").count(), 4_096);
        assert_eq!(answer.output.contains("],\"more_names\":true,"), more);
    }
}

/// The entry points of an image that is too long for the listing program.
#[test]
fn entry_points_of_a_long_image() {
    let mut module = Module::sample();
    module.segments = vec![Segment::default(); 255];
    module.entries = vec![2, 0, 1, 255, 0xAB, 0xCD, 0x3F, 255, 0xEF, 0xCD, 0];
    let mut image = module.image();
    image.resize(65_537, 0);
    let expected = "
Entry points
  ordinal  segment  offset  flag
        3      255  0xCDEF  0xAB
";
    let (status, text) = sections(&image, &[]);
    assert_eq!(status, Some(0));
    assert!(text.contains(expected), "{text}");
}
