//! `nemod info`: the tables of sound and of damaged files.

mod long;

use crate::module::{put_word, Module, NE, SEGMENTS};
use crate::run::{says, Damage, Folder};

const SAMPLE: &str = "s.drv: accepted, 2 segments, 4 sites
296 bytes

Header
  NE header          at 64
  linker             0.0
  module             program, no data segment of its own (0x0000)
  target system      unknown (0)
  data segment       none
  heap and stack     0 and 0 bytes
  entry point        none
  stack at           none
  sector             16 bytes, shift 4
  segment table      2 at 128
  entry table        16 bytes at 144
  resource table     at 160
  resident names     at 184
  module references  2 at 199
  imported names     at 203
  nonresident names  18 bytes at 215

Segments
   number       start   stored  allocation  records   flags
        1         240        8          10        1  0x0100  code, fixed, load on call, fixups
        2         272        6           6        2  0x0100  code, fixed, load on call, fixups

Entry points
  ordinal  segment  offset  flag
        1        1  0x0010  0x01
        4        2  0x0020  0x03

Names
   number  ordinal  name
        1        0  MOD
        2        4  Alpha
        3        0  About
        4     4660  Omega!

Modules
   number  name
        1  GDI
        2  KERNEL

Resources
   number  type              id     start    length   flags
        1  string             7        48        32  0x0C30  movable, shareable, load on call
";

#[test]
fn sample() {
    let folder = Folder::with_sample();
    assert_eq!(folder.nemod(&["info", "s.drv"]), says(0, SAMPLE));
    assert_eq!(folder.nemod(&["info", "--all", "s.drv"]), says(0, SAMPLE));
}

/// The words of a header of which every field says something.
#[test]
fn words_of_the_header() {
    let folder = Folder::with_damaged_sample(|image| {
        image[NE + 2..NE + 4].copy_from_slice(&[5, 60]);
        let words = [
            (0x0C, 0x8A09),
            (0x0E, 2),
            (0x10, 1024),
            (0x12, 1),
            (0x14, 0x1234),
            (0x16, 1),
            (0x18, 0xABCD),
            (0x1A, 2),
            (0x36, 2),
            (0x3E, 0x030A),
        ];
        for (field, word) in words {
            put_word(image, NE + field, word);
        }
    });
    let expected = "
Header
  NE header          at 64
  linker             5.60
  module             library, one data segment, protected mode, self-loading (0x8A09)
  target system      Windows (2), version 3.10
  data segment       2
  heap and stack     1024 and 1 byte
  entry point        1:1234
  stack at           2:ABCD
  sector             16 bytes, shift 4
";
    let answer = folder.nemod(&["info", "s.drv"]);
    assert_eq!(answer.status, Some(0));
    assert!(answer.output.contains(expected), "{}", answer.output);
}

/// What can be read is shown, and marked as unchecked.
#[test]
fn header_is_refused() {
    let none = "Header, unchecked\n  there is no NE header that could be read\n";
    let unchecked = "Header, unchecked
  NE header          at 64
  linker             0.0
  module             program, no data segment of its own (0x0000)
";
    let shift = "  sector             65536 bytes, shift 16\n  segment table      2 at 128\n";
    let outside = "  nonresident names  18 bytes at 215\n";
    let table: [(Damage, &str, [&str; 2]); 7] = [
        (
            |image| image.clear(),
            "refused 1: the file has under 64 bytes\n0 bytes\n",
            [none; 2],
        ),
        (
            |image| image.truncate(64),
            "refused 4: the NE header is not in the file\n64 bytes\n",
            [none; 2],
        ),
        (
            |image| image[NE] = b'P',
            "refused 5: no NE at the NE header's place\n296 bytes\n",
            [none; 2],
        ),
        (
            |image| image[0] = 0,
            "refused 3: no MZ at the start\n296 bytes\n",
            [unchecked, outside],
        ),
        (
            |image| put_word(image, NE + 0x32, 16),
            "refused 6: the alignment shift is over 15\n296 bytes\n",
            [unchecked, shift],
        ),
        (
            |image| put_word(image, NE + 0x32, 40),
            "refused 6: the alignment shift is over 15\n296 bytes\n",
            [unchecked, "  sector             0 bytes, shift 40\n"],
        ),
        (
            |image| image.truncate(232),
            "refused 7: a table leaves the file\n232 bytes\n",
            [unchecked, outside],
        ),
    ];
    for (damage, start, parts) in table {
        let answer = Folder::with_damaged_sample(damage).nemod(&["info", "s.drv"]);
        assert_eq!(answer.status, Some(1));
        assert!(
            answer.output.starts_with(&format!("s.drv: {start}")),
            "{}",
            answer.output
        );
        for part in parts {
            assert!(answer.output.contains(part), "{}", answer.output);
        }
        assert!(!answer.output.contains("Segments"), "{}", answer.output);
    }
}

/// The sections of an image, without the header's.
fn sections(image: &[u8], options: &[&str]) -> (Option<i32>, String) {
    let folder = Folder::new();
    folder.put("file", image);
    let answer = folder.nemod(&[&["info", "file"], options].concat());
    assert_eq!(answer.errors, "");
    let start = answer.output.find("\nSegments\n").expect("a section");
    (answer.status, answer.output[start..].to_string())
}

#[test]
fn nothing_but_an_empty_name_list() {
    let module = Module {
        resident: vec![0],
        ..Module::default()
    };
    let expected = "
Segments
  none

Entry points
  none

Names
  none

Modules
  none

Resources
  none
";
    let (status, text) = sections(&module.image(), &[]);
    assert_eq!((status, text.as_str()), (Some(0), expected));
}

/// Each table is refused, or a row of it, and all are shown.
#[test]
fn refused_tables() {
    let mut image = Module::sample().image();
    put_word(&mut image, SEGMENTS + 4, 8); // the first segment is iterated
    put_word(&mut image, NE + 0x06, 15); // the entry table is cut
    put_word(&mut image, NE + 0x20, 17); // the nonresident names are cut
    image[199] = 0; // the first module's name is empty
    image[160] = 16; // the resources' shift
    let expected = "
Segments
   number       start   stored  allocation  records   flags
        1  refused 10: the segment is iterated
        2         272        6           6        2  0x0100  code, fixed, load on call, fixups

Entry points
  refused 12: the entry table ends inside a bundle or has no end byte

Names
  refused 16: a name list or a module's name is unsound

Modules
   number  name
        1  refused 16: a name list or a module's name is unsound
        2  KERNEL

Resources
  refused 18: the resource table leaves the file, or its shift is over 15
";
    let (status, text) = sections(&image, &[]);
    assert_eq!((status, text.as_str()), (Some(1), expected));
}

/// One refusal in one section is enough for the status.
#[test]
fn each_section_counts() {
    let status = |change: fn(&mut Vec<u8>)| {
        let mut image = Module::sample().image();
        change(&mut image);
        sections(&image, &[]).0
    };
    assert_eq!(status(|_| ()), Some(0));
    assert_eq!(status(|image| put_word(image, SEGMENTS + 4, 8)), Some(1));
    assert_eq!(status(|image| put_word(image, NE + 0x06, 15)), Some(1));
    assert_eq!(status(|image| put_word(image, NE + 0x20, 17)), Some(1));
    assert_eq!(status(|image| image[199] = 0), Some(1));
    assert_eq!(status(|image| image[160] = 16), Some(1));
    assert_eq!(status(|image| put_word(image, 170, 0xFFFF)), Some(1));
    // A bad fixup is in no table, and stands below the verdict.
    assert_eq!(status(|image| image[290] = 3), Some(1));
}

/// The data of the first resource leave the file, and the second is shown.
#[test]
fn a_resource_is_refused() {
    let mut module = Module::sample();
    module.resources[4] = 2;
    let second = [1, 0, 1, 0, 0, 0, 8, 0x80, 0, 0, 0, 0];
    module.resources.splice(22..22, second);
    let mut image = module.image();
    put_word(&mut image, 170, 0xFFFF);
    let expected = "
Resources
   number  type              id     start    length   flags
        1  refused 20: the resource's data leave the file
        2  string             8        16        16  0x0000  fixed, load on call
";
    let (status, text) = sections(&image, &[]);
    assert_eq!(status, Some(1));
    assert!(text.ends_with(expected), "{text}");
}
