//! The lists of `nemod prepare`.

use crate::module::{Module, Segment};
use crate::run::{fails, says, Answer, Folder};

const NEEDS_SELECTORS: &str =
    "one for each segment of the module, the selector under which it is loaded\n";
const NEEDS_ANSWERS: &str = "one for each fixup record of the segment, the address of what it imports: \
    the selector in the high word, the offset in the low word; any number where it imports nothing\n";

/// What the second segment of the sample becomes with these lists: the far
/// pointer at 0 is the first answer, FFFEh added to its offset.
#[track_caller]
fn expect(selectors: &str, answers: &str, line: &str) {
    let expected =
        format!("0000  {line}\n* changed by a fixup, + in a fixup's span and as stored\n2 sites\n");
    assert_eq!(prepare(selectors, answers), says(0, &expected));
}

fn prepare(selectors: &str, answers: &str) -> Answer {
    let folder = Folder::with_sample();
    folder.put("answers", b" 0x40000003\n\t5\r\n");
    folder.put("commas", b"0x40000003,\n5\n");
    folder.put("selectors", b"1 2");
    folder.put("none", b" \n");
    folder.put("words", b"1 \x1B[2J");
    folder.put("long", &[b' '; 16_777_217]);
    let lists = ["--selectors", selectors, "--answers", answers];
    folder.nemod(&[&["prepare", "s.drv", "2", "--show"], &lists[..]].concat())
}

#[test]
fn numbers() {
    let line = "01*00*00+40*20*FF+                               |...@ .|";
    expect("1,2", "0x40000003,5", line);
    expect("1,2", "0X40000003,5", line);
    expect("1,2", "1073741827,5", line);
    expect("1, 2", "0x40000003 5", line);
    expect("65535,0xffff", "0x40000003,4294967295", line);
    expect("1,2,3", "0x40000003,5,6", line);
    expect("00000000000001,2", "0x0000000040000003,5", line);
    let largest = "FD*FF+FF*FF*20*FF+                               |.... .|";
    expect("1,2", "0xFFFFFFFF,0", largest);
}

#[test]
fn files() {
    let line = "01*00*00+40*20*FF+                               |...@ .|";
    expect("1,2", "@answers", line);
    expect("@selectors", "@commas", line);
}

/// The message about an option's value.
#[track_caller]
fn wrong(selectors: &str, answers: &str, message: &str) {
    let expected = format!("nemod: prepare: {message}\nTry 'nemod prepare --help'.\n");
    assert_eq!(prepare(selectors, answers), fails(&expected));
}

#[test]
fn wrong_numbers() {
    wrong("x", "1,2", "--selectors: 'x' is not a number");
    wrong("1,0x", "1,2", "--selectors: '0x' is not a number");
    wrong("1,+2", "1,2", "--selectors: '+2' is not a number");
    wrong("1;2", "1,2", "--selectors: '1;2' is not a number");
    wrong("1,2", "0xG,1", "--answers: '0xG' is not a number");
    wrong("1,2", "@words", "--answers: '\\x1B[2J' is not a number");
    let over = "--selectors: 65536 is over 65535 (0xFFFF)";
    wrong("1,65536", "1,2", over);
    let over = "--selectors: 0x10000 is over 65535 (0xFFFF)";
    wrong("0x10000,1", "1,2", over);
    let over = "--answers: 4294967296 is over 4294967295 (0xFFFFFFFF)";
    wrong("1,2", "1,4294967296", over);
    let over = "--answers: 0x100000000 is over 4294967295 (0xFFFFFFFF)";
    wrong("1,2", "1,0x100000000", over);
    let digits = "9".repeat(41);
    let shown = "9".repeat(40);
    let over = format!("--answers: {shown}... is over 4294967295 (0xFFFFFFFF)");
    wrong("1,2", &digits, &over);
}

#[test]
fn missing_numbers() {
    let missing = "--selectors: a number is missing beside a comma";
    wrong("1,,2", "1,2", missing);
    wrong("1,2,", "1,2", missing);
    wrong(",1,2", "1,2", missing);
    wrong(",", "1,2", missing);
    wrong("1, ,2", "1,2", missing);
}

#[test]
fn files_that_are_no_lists() {
    let missing = "nemod: nowhere: No such file or directory (os error 2)\n";
    assert_eq!(prepare("1,2", "@nowhere"), fails(missing));
    let nameless = "nemod: : No such file or directory (os error 2)\n";
    assert_eq!(prepare("1,2", "@"), fails(nameless));
    assert_eq!(
        prepare("@.", "1"),
        fails("nemod: .: Is a directory (os error 21)\n")
    );
    let long = "nemod: long: too long for a list\n";
    assert_eq!(prepare("@long", "1"), fails(long));
    let endless = "nemod: /dev/zero: too long for a list\n";
    assert_eq!(prepare("@/dev/zero", "1"), fails(endless));
}

#[test]
fn too_short() {
    let selectors =
        format!("nemod: prepare: --selectors needs 2 numbers and has 1: {NEEDS_SELECTORS}");
    let answers = format!("nemod: prepare: --answers needs 2 numbers and has 1: {NEEDS_ANSWERS}");
    assert_eq!(prepare("1", "1,2"), fails(&selectors));
    assert_eq!(prepare("1,2", "1"), fails(&answers));
    assert_eq!(prepare("1", "1"), fails(&format!("{selectors}{answers}")));
    let none = format!("nemod: prepare: --answers needs 2 numbers and has 0: {NEEDS_ANSWERS}");
    assert_eq!(prepare("1,2", ""), fails(&none));
    assert_eq!(prepare("1,2", "@none"), fails(&none));
}

/// Without records no answers are needed, and a list that is left out is empty.
#[test]
fn left_out() {
    let folder = Folder::new();
    let segment = Segment {
        allocation: 3,
        ..Segment::default()
    };
    let module = Module {
        segments: vec![segment],
        ..Module::default()
    };
    folder.put("s.drv", &module.image());
    let shown = "0000  00 00 00                                         |...|
* changed by a fixup, + in a fixup's span and as stored
0 sites
";
    let answer = folder.nemod(&["prepare", "s.drv", "1", "--show", "--selectors", "7"]);
    assert_eq!(answer, says(0, shown));
    let one = format!("nemod: prepare: --selectors needs 1 number and has 0: {NEEDS_SELECTORS}");
    assert_eq!(
        folder.nemod(&["prepare", "s.drv", "1", "--show"]),
        fails(&one)
    );
}
