//! Many files: folders, lists of files, and what is told of them.

use crate::module::Module;
use crate::run::{fails, says, Answer, Folder};
use std::fs;
use std::os::unix::fs::symlink;

/// Two files that are accepted and two that are refused, in folders.
fn uploads() -> Folder {
    let folder = Folder::new();
    let sample = Module::sample().image();
    fs::create_dir_all(folder.path("up/b/c")).expect("folders");
    folder.put("up/a.drv", &sample);
    folder.put("up/b/2", b"");
    folder.put("up/b/10 a", &sample);
    folder.put("up/b/c/z", b"MZ");
    folder.put("alone", &sample);
    folder
}

const A: &str = "up/a.drv: accepted, 2 segments, 4 sites\n";
const B_10: &str = "up/b/10 a: accepted, 2 segments, 4 sites\n";
const B_2: &str = "up/b/2: refused 1: the file has under 64 bytes\n";
const Z: &str = "up/b/c/z: refused 1: the file has under 64 bytes\n";
const ALONE: &str = "alone: accepted, 2 segments, 4 sites\n";

#[test]
fn many() {
    let folder = uploads();
    let list = "alone\nup/b/2\n\nup/b/10 a\n";
    folder.put("list", list.as_bytes());
    folder.put("list0", list.replace('\n', "\0").as_bytes());
    let counts = |accepted: u32, refused: u32| {
        let files = accepted + refused;
        let plural = if files == 1 { "" } else { "s" };
        format!("{files} file{plural}: {accepted} accepted, {refused} refused, 0 not read\n")
    };
    let walk = [A, B_10, B_2, Z, &counts(2, 2)].concat();
    let listed = [ALONE, B_2, B_10, &counts(2, 1)].concat();
    let table = [
        ("nemod check -r up", 1, walk.clone()),
        ("nemod check --recursive up/", 1, walk.clone()),
        (
            "nemod check -r alone up",
            1,
            [ALONE, A, B_10, B_2, Z, &counts(3, 2)].concat(),
        ),
        ("nemod check -r up/b/c", 1, [Z, &counts(0, 1)].concat()),
        (
            "nemod check --refused -r up",
            1,
            [B_2, Z, &counts(2, 2)].concat(),
        ),
        ("nemod check --refused alone", 0, counts(1, 0)),
        ("nemod check -qr up", 1, String::new()),
        ("nemod check -q --json alone", 0, String::new()),
        ("nemod check --files-from list", 1, listed.clone()),
        ("nemod check --files-from=- <list", 1, listed.clone()),
        ("nemod check -0 --files-from list0", 1, listed.clone()),
        (
            "nemod check --null --files-from - <list0",
            1,
            listed.clone(),
        ),
        (
            "nemod check up/a.drv --files-from list",
            1,
            [A, ALONE, B_2, B_10, &counts(3, 1)].concat(),
        ),
        ("echo up | nemod check -r --files-from -", 1, walk.clone()),
        (
            "nemod check --files-from /dev/null",
            0,
            counts(0, 0).replace("0 file:", "0 files:"),
        ),
        (
            "find up -type f -print0 | sort -z | nemod check -0 --files-from -",
            1,
            walk,
        ),
    ];
    for (line, status, output) in table {
        assert_eq!(folder.shell(line), says(status, &output), "{line}");
    }
}

/// Without the option a folder is not read, and neither is a list that is none.
#[test]
fn not_read() {
    let folder = uploads();
    let expected = Answer {
        output: "up: not read: Is a directory (os error 21)
1 file: 0 accepted, 0 refused, 1 not read
"
        .to_string(),
        ..fails("nemod: up: Is a directory (os error 21)\n")
    };
    assert_eq!(folder.nemod(&["check", "up"]), expected);
    let quiet = fails("nemod: up: Is a directory (os error 21)\n");
    assert_eq!(folder.nemod(&["check", "--quiet", "up"]), quiet);
    let list = fails("nemod: nowhere: No such file or directory (os error 2)\n");
    assert_eq!(folder.nemod(&["check", "--files-from", "nowhere"]), list);
    let endless = fails("nemod: /dev/zero: too long for a list\n");
    assert_eq!(
        folder.nemod(&["check", "--files-from", "/dev/zero"]),
        endless
    );
}

/// A link to a file is followed, and one that leads nowhere is told. What could
/// keep a job waiting, or lead back, is passed over.
#[test]
fn links_and_pipes_in_folders() {
    let folder = uploads();
    let links = [("../alone", "link"), ("..", "back"), ("nowhere", "lost")];
    for (target, name) in links {
        symlink(target, folder.path("up").join(name)).expect("a link");
    }
    let expected = Answer {
        status: Some(2),
        output: [
            A,
            B_10,
            B_2,
            Z,
            "up/link: accepted, 2 segments, 4 sites\n",
            "up/lost: not read: No such file or directory (os error 2)\n",
            "6 files: 3 accepted, 2 refused, 1 not read\n",
        ]
        .concat(),
        errors: "nemod: up/lost: No such file or directory (os error 2)\n".to_string(),
    };
    let answer = folder.shell("mkfifo up/pipe; nemod check -r up");
    assert_eq!(answer, expected);
}
