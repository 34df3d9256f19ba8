//! `nemod list`: the lines of the listing program, without its limit.

use crate::module::{put_word, Module, NE};
use crate::run::{says, Folder};

const LISTING: &str = "ordinals 4\n1 1:0010 01\n4 2:0020 03\nend\n";

/// The listing of the sample with so many bytes.
#[track_caller]
fn expect(length: usize, status: i32, text: &str) {
    let folder = Folder::new();
    let mut image = Module::sample().image();
    image.resize(length, 0);
    folder.put("file", &image);
    assert_eq!(folder.nemod(&["list", "file"]), says(status, text));
}

#[test]
fn lengths() {
    expect(296, 0, LISTING);
    expect(65_536, 0, LISTING);
    expect(65_537, 0, LISTING);
    expect(16_777_216, 0, LISTING);
    expect(16_777_217, 1, "refused 2\n");
    expect(63, 1, "refused 1\n");
    expect(0, 1, "refused 1\n");
}

#[test]
fn no_entry_points() {
    let folder = Folder::new();
    folder.put("file", &Module::default().image());
    assert_eq!(
        folder.nemod(&["list", "file"]),
        says(0, "ordinals 0\nend\n")
    );
}

#[test]
fn entry_table_is_refused() {
    let folder = Folder::new();
    let mut image = Module::sample().image();
    put_word(&mut image, NE + 0x06, 15);
    folder.put("file", &image);
    assert_eq!(folder.nemod(&["list", "file"]), says(1, "refused 12\n"));
}
