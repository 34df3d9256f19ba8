//! `nemod prepare`: what it writes to standard output and what it refuses.

use crate::module::{put_word, Module, Segment, SEGMENTS};
use crate::run::{fails, says, Answer, Folder};

const LISTS: [&str; 4] = ["--selectors", "1,2", "--answers", "0x40000003,5"];

/// Prepares a segment of the sample with the lists.
fn prepare(folder: &Folder, number: &str, options: &[&str]) -> Answer {
    folder.nemod(&[&["prepare", "s.drv", number], options, &LISTS].concat())
}

#[test]
fn shown() {
    let folder = Folder::with_sample();
    let first = "\
0000  00 00 34*12*AA BB 34*12*00 00                    |..4...4...|
* changed by a fixup, + in a fixup's span and as stored
2 sites
";
    assert_eq!(prepare(&folder, "1", &["--show"]), says(0, first));
    let second = "\
0000  01*00*00+40*20*FF+                               |...@ .|
* changed by a fixup, + in a fixup's span and as stored
2 sites
";
    assert_eq!(prepare(&folder, "0x2", &["--show"]), says(0, second));
}

/// Whole lines, and lines of zeros that are not left out.
#[test]
fn shown_in_several_lines() {
    let folder = Folder::new();
    let mut stored = b"0123456789ABCDEF".to_vec();
    stored.extend([0xFF, 0xFF]);
    let segment = Segment {
        stored,
        allocation: 64,
        // An offset at 16, to segment 1 at FFFFh.
        records: vec![[5, 0, 16, 0, 1, 0, 0xFF, 0xFF]],
    };
    let module = Module {
        segments: vec![segment],
        ..Module::default()
    };
    folder.put("s.drv", &module.image());
    let expected = "\
0000  30 31 32 33 34 35 36 37 38 39 41 42 43 44 45 46  |0123456789ABCDEF|
0010  FF+FF+00 00 00 00 00 00 00 00 00 00 00 00 00 00  |................|
0020  00 00 00 00 00 00 00 00 00 00 00 00 00 00 00 00  |................|
0030  00 00 00 00 00 00 00 00 00 00 00 00 00 00 00 00  |................|
* changed by a fixup, + in a fixup's span and as stored
1 site
";
    assert_eq!(prepare(&folder, "1", &["--show"]), says(0, expected));
}

#[test]
fn bytes_on_standard_output() {
    let folder = Folder::with_sample();
    let mut command = folder.command(&["prepare", "s.drv", "1", "-o", "-"]);
    let output = command.args(LISTS).output().expect("a command that runs");
    let bytes = [0, 0, 0x34, 0x12, 0xAA, 0xBB, 0x34, 0x12, 0, 0];
    assert_eq!(output.status.code(), Some(0));
    assert_eq!(output.stdout, bytes);
    assert_eq!(output.stderr, b"");
}

/// A refusal is on standard output, unless the bytes are wanted there.
#[test]
fn refused() {
    let folder = Folder::new();
    let mut image = Module::sample().image();
    image[290] = 3; // the site of the second record
    folder.put("s.drv", &image);
    let line = "refused 25 at record 2: span meets an earlier one\n";
    assert_eq!(prepare(&folder, "2", &["--show"]), says(1, line));
    let expected = Answer {
        status: Some(1),
        ..fails(&format!("nemod: {line}"))
    };
    assert_eq!(prepare(&folder, "2", &["-o", "-"]), expected);
    let number = says(1, "refused 8: no such number\n");
    assert_eq!(prepare(&folder, "3", &["--show"]), number);
    put_word(&mut image, SEGMENTS + 4, 8);
    folder.put("s.drv", &image);
    let iterated = says(1, "refused 10: the segment is iterated\n");
    assert_eq!(prepare(&folder, "1", &["--show"]), iterated);
}

#[test]
fn file_is_not_read() {
    let folder = Folder::new();
    let expected = fails("nemod: s.drv: No such file or directory (os error 2)\n");
    assert_eq!(prepare(&folder, "1", &["--show"]), expected);
}

#[test]
fn where_to_is_not_said() {
    let folder = Folder::with_sample();
    let nowhere = "nemod: prepare: give --output, --show or both\nTry 'nemod prepare --help'.\n";
    assert_eq!(prepare(&folder, "1", &[]), fails(nowhere));
    let both = "nemod: prepare: --output - and --show both write to standard output
Try 'nemod prepare --help'.
";
    assert_eq!(prepare(&folder, "1", &["-o", "-", "--show"]), fails(both));
}
