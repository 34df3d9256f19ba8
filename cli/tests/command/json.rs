//! `--json`.

use crate::module::{put_word, Module, Segment, NE, SEGMENTS};
use crate::run::{says, Answer, Damage, Folder};
use std::ffi::OsStr;
use std::os::unix::ffi::OsStrExt;
use std::process::Command;

/// The members that come after the status of an image of so many bytes.
fn bytes(folder: &Folder, file: &str) -> String {
    let output = Command::new("sha256sum").arg(folder.path(file)).output();
    let output = output.expect("a command that runs").stdout;
    let hash = String::from_utf8_lossy(&output[..64]);
    let size = folder.get(file).len();
    format!(r#""checked":"all","size":{size},"sha256":"{hash}","#)
}

#[track_caller]
fn expect(damage: impl Fn(&mut Vec<u8>), status: i32, word: &str, rest: &str) {
    let folder = Folder::with_damaged_sample(damage);
    let bytes = bytes(&folder, "s.drv");
    let expected = format!("{{\"file\":\"s.drv\",\"status\":\"{word}\",{bytes}{rest}}}\n");
    for arguments in [["check", "--json", "s.drv"], ["check", "s.drv", "--json"]] {
        assert_eq!(folder.nemod(&arguments), says(status, &expected));
    }
}

#[test]
fn accepted() {
    let rest = r#""segments":2,"sites":4,"faults":[],"more_faults":0"#;
    expect(|_| (), 0, "accepted", rest);
    let answer = Folder::with_sample().nemod(&["check", "--json", "--segments", "s.drv"]);
    let start = r#"{"file":"s.drv","status":"accepted","checked":"segments","size":296,"#;
    assert!(answer.output.starts_with(start), "{}", answer.output);
}

/// What was refused: the first fault in the file's own members, all of them in
/// the list.
#[test]
fn refused() {
    let counts = r#""segments":2,"sites":4"#;
    let table: [(Damage, &str, &str); 7] = [
        (
            |image| image[0] = 0,
            r#""part":"header","refusal":3,"text":"no MZ at the start""#,
            r#""segments":0,"sites":0"#,
        ),
        (
            |image| image[155] = 0,
            r#""part":"entries","refusal":13,"text":"an entry's segment or its CDh 3Fh is missing""#,
            r#""segments":2,"sites":0"#,
        ),
        (
            |image| put_word(image, NE + 0x20, 17),
            r#""part":"names","refusal":16,"text":"a name list or a module's name is unsound""#,
            counts,
        ),
        (
            |image| image[201] = 0,
            r#""part":"module","number":2,"refusal":16,"text":"a name list or a module's name is unsound""#,
            counts,
        ),
        (
            |image| image[160] = 16,
            r#""part":"resource","refusal":18,"text":"the resource table leaves the file, or its shift is over 15""#,
            counts,
        ),
        (
            |image| put_word(image, 170, 0xFFFF),
            r#""part":"resource","number":1,"refusal":20,"text":"the resource's data leave the file""#,
            counts,
        ),
        (
            |image| image[290] = 3,
            r#""part":"segment","number":2,"refusal":25,"record":2,"text":"span meets an earlier one""#,
            r#""segments":2,"sites":2"#,
        ),
    ];
    for (damage, fault, counts) in table {
        let rest = format!(r#"{fault},{counts},"faults":[{{{fault}}}],"more_faults":0"#);
        expect(damage, 1, "refused", &rest);
    }
}

/// However many faults there are, 100 are listed.
#[test]
fn many_faults() {
    let folder = Folder::new();
    let segment = Segment {
        allocation: 3,
        ..Segment::default()
    };
    let mut module = Module::sample();
    module.segments = vec![segment; 1_000];
    let mut image = module.image();
    for number in 0..1_000 {
        put_word(&mut image, SEGMENTS + 8 * number + 4, 8);
    }
    folder.put("s.drv", &image);
    let fault = |number| {
        format!(
            r#"{{"part":"segment","number":{number},"refusal":10,"text":"the segment is iterated"}}"#
        )
    };
    let faults: Vec<String> = (1..=100).map(fault).collect();
    let end = format!("\"faults\":[{}],\"more_faults\":900}}\n", faults.join(","));
    let answer = folder.nemod(&["check", "--json", "--segments", "s.drv"]);
    assert_eq!(answer.status, Some(1));
    assert!(answer.output.ends_with(&end), "{}", answer.output);
    let lines = folder.nemod(&["check", "--segments", "s.drv"]).output;
    let lines: Vec<&str> = lines.lines().collect();
    assert_eq!(lines.len(), 103);
    assert_eq!(
        lines[100],
        "  segment 100: refused 10: the segment is iterated"
    );
    assert_eq!(lines[101], "  900 more faults");
}

/// A line for each file, one that is not read included, and no summary.
#[test]
fn several_files() {
    let folder = Folder::with_sample();
    let unread = concat!(
        r#"{"file":"nowhere","status":"unread","#,
        r#""reason":"No such file or directory (os error 2)"}"#,
        "\n"
    );
    let accepted = folder.nemod(&["check", "--json", "s.drv"]).output;
    let expected = Answer {
        status: Some(2),
        output: format!("{unread}{accepted}"),
        errors: "nemod: nowhere: No such file or directory (os error 2)\n".to_string(),
    };
    let files = ["check", "--json", "nowhere", "s.drv"];
    assert_eq!(folder.nemod(&files), expected);
}

/// A file that is too long was not read to its end, so its size and its hash are
/// not said.
#[test]
fn too_long() {
    let folder = Folder::new();
    folder.put("long", &vec![0; 16_777_217]);
    let fault = r#""part":"header","refusal":2,"text":"the file has over 16,777,216 bytes""#;
    let expected = format!(
        "{{\"file\":\"long\",\"status\":\"refused\",\"checked\":\"all\",{fault},\"segments\":0,\"sites\":0,\
         \"faults\":[{{{fault}}}],\"more_faults\":0}}\n"
    );
    let answer = folder.nemod(&["check", "--json", "long"]);
    assert_eq!(answer, says(1, &expected));
}

/// A name is escaped as JSON wants it; one that is not UTF-8 is given by its
/// bytes too.
#[test]
fn names_of_files() {
    let folder = Folder::new();
    let odd = "a\"\\\n\x1B\x7F\u{9B} \u{E9}\u{2028}\u{1F4BE}";
    let names = [OsStr::new(odd), OsStr::from_bytes(b"caf\xC3\xA9\xFF")];
    for name in names {
        folder.put(name, b"");
    }
    let arguments = [&["check", "--json"].map(OsStr::new), &names[..]].concat();
    let answer = folder.nemod(&arguments);
    let expected = [
        r#"{"file":"a\"\\\u000A\u001B\u007F\u009B \u00E9\u2028\uD83D\uDCBE","status":"refused","#,
        r#"{"file":"caf\u00E9\uFFFD","file_hex":"636166C3A9FF","status":"refused","#,
    ];
    for (line, start) in answer.output.lines().zip(expected) {
        assert!(line.starts_with(start), "{line}");
    }
    assert_eq!(answer.status, Some(1));
}

/// One question, one object; a refusal too.
#[test]
fn queries() {
    let folder = Folder::with_sample();
    let table: [(&[&str], i32, &str); 9] = [
        (
            &["segment", "s.drv", "2"],
            0,
            r#"{"segment":2,"start":272,"stored":6,"allocation":6,"flags":256,"flag_words":["code","fixed","load on call","fixups"],"records":2}"#,
        ),
        (
            &["ordinal", "s.drv", "4"],
            0,
            r#"{"ordinal":4,"segment":2,"offset":32,"flag":3}"#,
        ),
        (
            &["name", "s.drv", "Alpha"],
            0,
            r#"{"name":2,"string":"Alpha","ordinal":4,"text_at":191}"#,
        ),
        (
            &["module", "s.drv", "1"],
            0,
            r#"{"module":1,"string":"GDI","text_at":205}"#,
        ),
        (
            &["resource", "s.drv", "1"],
            0,
            r#"{"type":32774,"type_word":"string","id":32775,"id_word":"7","flags":3120,"flag_words":["movable","shareable","load on call"],"data_at":48,"data_len":32}"#,
        ),
        (
            &["explain", "8"],
            0,
            r#"{"refusal":8,"text":"no such number","meaning":"The number that was asked for is 0 or above the count of the segments, names, modules or resources.","advice":"The file is not at fault. Ask for a number from 1 to the count."}"#,
        ),
        (
            &["segment", "s.drv", "3"],
            1,
            r#"{"refusal":8,"text":"no such number"}"#,
        ),
        (
            &["ordinal", "s.drv", "2"],
            1,
            r#"{"refusal":15,"text":"no such ordinal"}"#,
        ),
        (
            &["resource", "s.drv", "icon", "7"],
            1,
            r#"{"refusal":19,"text":"no such resource"}"#,
        ),
    ];
    for (arguments, status, line) in table {
        let answer = folder.nemod(&[arguments, &["--json"]].concat());
        assert_eq!(answer, says(status, &format!("{line}\n")));
    }
    let lines = folder.nemod(&["explain", "--json"]).output;
    assert_eq!(lines.lines().count(), parchgable::Refusal::ALL.len());
}

/// Bytes of a name that are no ASCII are the characters of their numbers.
#[test]
fn bytes_of_names() {
    let folder = Folder::new();
    let module = Module {
        resident: b"\x06\x1B[2J\\\xE9\x01\x00\x00".to_vec(),
        ..Module::default()
    };
    folder.put("file", &module.image());
    let expected = r#"{"name":1,"string":"\u001B[2J\\\u00E9","ordinal":1,"text_at":129}"#;
    let answer = folder.nemod(&["name", "file", "--number", "1", "--json"]);
    assert_eq!(answer, says(0, &format!("{expected}\n")));
}

/// All tables: the members of `check`, then the header and the rows.
#[test]
fn info() {
    let folder = Folder::with_sample();
    let checked = folder.nemod(&["check", "--json", "s.drv"]).output;
    let checked = checked.trim_end().trim_end_matches('}');
    let header = concat!(
        r#""header":{"checked":true,"linker":"0.0","flags":0,"#,
        r#""flag_words":["program","no data segment of its own"],"#,
        r#""system":0,"system_word":"unknown","system_version":"0.00","data_segment":0,"heap":0,"#,
        r#""stack":0,"entry_segment":0,"entry_offset":0,"stack_segment":0,"stack_offset":0,"#,
        r#""shift":4,"header_at":64,"segments_at":128,"segments":2,"modules_at":199,"modules":2,"#,
        r#""entries_at":144,"entries_len":16,"nonresident_at":215,"nonresident_len":18,"#,
        r#""resident_at":184,"imported_at":203,"resources_at":160}"#,
    );
    let row = |arguments: &[&str]| {
        let answer = folder.nemod(&[arguments, &["--json"]].concat());
        answer.output.trim_end().to_string()
    };
    let segments = ["1", "2"].map(|number| row(&["segment", "s.drv", number]));
    let entries = ["1", "4"].map(|number| row(&["ordinal", "s.drv", number]));
    let names = ["1", "2", "3", "4"].map(|number| row(&["name", "s.drv", "--number", number]));
    let modules = ["1", "2"].map(|number| row(&["module", "s.drv", number]));
    let resource = row(&["resource", "s.drv", "1"]);
    let resource = resource.replacen('{', "{\"resource\":1,", 1);
    let tables = format!(
        r#""tables":{{"segments":[{}],"entry_points":[{}],"names":[{}],"modules":[{}],"resources":[{resource}]}}"#,
        segments.join(","),
        entries.join(","),
        names.join(","),
        modules.join(","),
    );
    let expected = format!("{checked},{header},{tables}}}\n");
    assert_eq!(
        folder.nemod(&["info", "--json", "s.drv"]),
        says(0, &expected)
    );
}

/// A header that is refused is marked as unchecked, and has no tables after it.
#[test]
fn info_of_a_header_that_is_refused() {
    let folder = Folder::with_damaged_sample(|image| put_word(image, NE + 0x32, 16));
    let answer = folder.nemod(&["info", "--json", "s.drv"]);
    assert_eq!(answer.status, Some(1));
    let header = r#","header":{"checked":false,"linker":"0.0","#;
    assert!(answer.output.contains(header), "{}", answer.output);
    assert!(
        answer.output.ends_with("\"tables\":{}}\n"),
        "{}",
        answer.output
    );
    folder.put("s.drv", b"PK");
    let answer = folder.nemod(&["info", "--json", "s.drv"]);
    let end = "\"header\":{\"checked\":false},\"tables\":{}}\n";
    assert!(answer.output.ends_with(end), "{}", answer.output);
}
