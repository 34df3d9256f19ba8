//! The queries: each one's answer and each one's refusals.

use crate::module::{put_word, Module, NE};
use crate::run::{says, Folder};

/// Asks the sample.
#[track_caller]
fn expect(arguments: &[&str], status: i32, line: &str) {
    let folder = Folder::with_sample();
    let expected = says(status, &format!("{line}\n"));
    assert_eq!(folder.nemod(arguments), expected);
}

#[test]
fn segment() {
    let second = "segment 2: 6 stored bytes at 272, allocation 6, \
         flags 0x0100 (code, fixed, load on call, fixups), 2 fixup records";
    expect(&["segment", "s.drv", "2"], 0, second);
    expect(&["segment", "s.drv", "0x2"], 0, second);
    let refused = "refused 8: no such number";
    expect(&["segment", "s.drv", "0"], 1, refused);
    expect(&["segment", "s.drv", "3"], 1, refused);
    expect(&["segment", "s.drv", "4294967295"], 1, refused);
    expect(&["segment", "s.drv", "0xFFFFFFFF"], 1, refused);
}

#[test]
fn ordinal() {
    let fourth = "ordinal 4: segment 2, offset 0x0020, flag 0x03";
    expect(&["ordinal", "s.drv", "4"], 0, fourth);
    let refused = "refused 15: no such ordinal";
    expect(&["ordinal", "s.drv", "0"], 1, refused);
    expect(&["ordinal", "s.drv", "3"], 1, refused);
}

#[test]
fn name() {
    let alpha = "name 2: Alpha, ordinal 4, text at 191";
    expect(&["name", "s.drv", "Alpha"], 0, alpha);
    expect(&["name", "s.drv", "--number", "2"], 0, alpha);
    expect(&["name", "--number=0x2", "s.drv"], 0, alpha);
    let first = "name 1: MOD, ordinal 0, text at 185";
    expect(&["name", "s.drv", "--number", "1"], 0, first);
    let not_found = "refused 17: no such name";
    expect(&["name", "s.drv", "MOD"], 1, not_found);
    expect(&["name", "s.drv", "alpha"], 1, not_found);
    expect(&["name", "s.drv", ""], 1, not_found);
    expect(&["name", "s.drv", "--", "--number"], 1, not_found);
    let no_number = "refused 8: no such number";
    expect(&["name", "s.drv", "--number", "5"], 1, no_number);
}

#[test]
fn module() {
    expect(&["module", "s.drv", "1"], 0, "module 1: GDI, text at 205");
    expect(&["module", "s.drv", "3"], 1, "refused 8: no such number");
}

/// A type by its name, its number or its word, an id by its number or its word.
#[test]
fn resource() {
    let found = "resource string 7 (type 0x8006, id 0x8007): 32 bytes at 48, \
         flags 0x0C30 (movable, shareable, load on call)";
    let not_found = "refused 19: no such resource";
    let table: [(&[&str], i32, &str); 12] = [
        (&["1"], 0, found),
        (&["string", "7"], 0, found),
        (&["STRING", "0x8007"], 0, found),
        (&["6", "7"], 0, found),
        (&["0x8006", "0x8007"], 0, found),
        (&["32774", "32775"], 0, found),
        (&["2"], 1, "refused 8: no such number"),
        (&["7", "6"], 1, not_found),
        (&["icon", "7"], 1, not_found),
        (&["0x8007", "0x8006"], 1, not_found),
        (&["0x18006", "0x8007"], 1, not_found),
        (&["string", "0x18007"], 1, not_found),
    ];
    for (operands, status, line) in table {
        expect(&[&["resource", "s.drv"], operands].concat(), status, line);
    }
}

/// Types and ids that are names, and a name that leaves the file.
#[test]
fn named_resources() {
    let folder = Folder::new();
    let mut module = Module::sample();
    // At the table's start a byte 4, so the name has 4 bytes: 0 6 0 80h.
    put_word(&mut module.resources, 16, 0);
    let mut image = module.image();
    put_word(&mut image, 162, 0x7FFF);
    folder.put("file", &image);
    let line = "resource 0x7FFF \"\\x00\\xFF\\x7F\\x01\" (type 0x7FFF, id 0x0000): \
         32 bytes at 48, flags 0x0C30 (movable, shareable, load on call)\n";
    assert_eq!(folder.nemod(&["resource", "file", "1"]), says(0, line));
}

/// Expects a refusal of the sample after a change.
#[track_caller]
fn damaged(change: impl Fn(&mut [u8]), arguments: &[&str], line: &str) {
    let folder = Folder::new();
    let mut image = Module::sample().image();
    change(&mut image);
    folder.put("bad", &image);
    let expected = says(1, &format!("{line}\n"));
    assert_eq!(folder.nemod(arguments), expected);
}

#[test]
fn tables_are_refused() {
    let entries = |image: &mut [u8]| put_word(image, NE + 0x06, 15);
    let refused = "refused 12: the entry table ends inside a bundle or has no end byte";
    damaged(entries, &["ordinal", "bad", "1"], refused);
    let names = |image: &mut [u8]| put_word(image, NE + 0x20, 17);
    let refused = "refused 16: a name list or a module's name is unsound";
    damaged(names, &["name", "bad", "Alpha"], refused);
    damaged(names, &["name", "bad", "--number", "1"], refused);
    damaged(|image| image[199] = 0, &["module", "bad", "1"], refused);
    let shift = |image: &mut [u8]| image[160] = 16;
    let refused = "refused 18: the resource table leaves the file, or its shift is over 15";
    damaged(shift, &["resource", "bad", "1"], refused);
    damaged(shift, &["resource", "bad", "1", "1"], refused);
    let data = |image: &mut [u8]| put_word(image, 170, 0xFFFF);
    let refused = "refused 20: the resource's data leave the file";
    damaged(data, &["resource", "bad", "1"], refused);
    let mz = |image: &mut [u8]| image[0] = 0;
    let refused = "refused 3: no MZ at the start";
    damaged(mz, &["segment", "bad", "1"], refused);
}

/// A name's bytes that a terminal could obey are escaped.
#[test]
fn bytes_of_names() {
    let folder = Folder::new();
    let module = Module {
        resident: b"\x01M\x00\x00\x06\x1B[2J\\\xE9\x01\x00\x00".to_vec(),
        modules: vec![0, 0],
        imported: b"\x03A\x07B".to_vec(),
        ..Module::default()
    };
    folder.put("file", &module.image());
    let name = "name 2: \\x1B[2J\\\\\\xE9, ordinal 1, text at 133\n";
    let answer = folder.nemod(&["name", "file", "--number", "2"]);
    assert_eq!(answer, says(0, name));
    let module = "module 1: A\\x07B, text at 145\n";
    assert_eq!(folder.nemod(&["module", "file", "1"]), says(0, module));
}

/// The stored bytes of a segment and the data of a resource, as files.
#[test]
fn bytes_are_written() {
    let folder = Folder::with_sample();
    let image = folder.get("s.drv");
    let table: [(&str, &[&str], &[u8]); 4] = [
        ("segment", &["1"], &image[240..248]),
        ("segment", &["2"], &image[272..278]),
        ("resource", &["1"], &image[48..80]),
        ("resource", &["string", "7"], &image[48..80]),
    ];
    for (command, operands, bytes) in table {
        let arguments = [&[command, "s.drv"], operands].concat();
        let line = folder.nemod(&arguments).output;
        for json in [&[][..], &["--json"]] {
            let to_file = [&arguments, &["-oout"][..], json].concat();
            let answer = folder.nemod(&to_file);
            assert_eq!((answer.status, answer.errors.as_str()), (Some(0), ""));
            assert_eq!(answer.output == line, json.is_empty());
            assert_eq!(folder.get("out"), bytes);
        }
        let words = arguments.join(" ");
        let to_output = format!("nemod {words} --output - >out2; echo $?");
        assert_eq!(folder.shell(&to_output), says(0, "0\n"));
        assert_eq!(folder.get("out2"), bytes);
    }
    let refused = says(1, "refused 8: no such number\n");
    assert_eq!(
        folder.nemod(&["segment", "s.drv", "3", "-o", "new"]),
        refused
    );
    assert_eq!(folder.names(), ["out", "out2", "s.drv"]);
}
