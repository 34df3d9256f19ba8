//! What is different on a terminal: colours, and how far the work is.

use crate::run::Folder;

/// What a terminal shows of a command line.
fn shown(folder: &Folder, line: &str) -> String {
    let line = format!("export NEMOD; script --quiet --return --command '{line}' /dev/null");
    let answer = folder.shell(&line);
    assert_eq!(answer.errors, "");
    answer.output.replace("\r\n", "\n")
}

#[test]
fn colours() {
    let folder = Folder::with_sample();
    folder.put("empty", b"");
    let check = "\"$NEMOD\" check --work 0 s.drv empty nowhere 2>/dev/null";
    let plain = "s.drv: too much work: resource 1 is over the limit; --all has none
empty: refused 1: the file has under 64 bytes
nowhere: not read: No such file or directory (os error 2)
3 files: 0 accepted, 1 refused, 1 not read, 1 too much work
";
    let coloured = plain
        .replacen("too much work", "\x1b[1;33mtoo much work\x1b[0m", 1)
        .replacen("refused 1", "\x1b[1;31mrefused 1\x1b[0m", 1)
        .replacen("not read", "\x1b[1;33mnot read\x1b[0m", 1);
    assert_eq!(shown(&folder, check), coloured);
    assert_eq!(shown(&folder, &format!("NO_COLOR=1 {check}")), plain);
    assert_eq!(shown(&folder, &format!("NO_COLOR= {check}")), coloured);
    assert_eq!(shown(&folder, &format!("{check} | cat")), plain);
    let accepted = shown(&folder, "\"$NEMOD\" check s.drv");
    let expected = "s.drv: \x1b[1;32maccepted\x1b[0m, 2 segments, 4 sites\n";
    assert!(accepted.starts_with(expected), "{accepted:?}");
    let show = "\"$NEMOD\" prepare s.drv 1 --selectors 1,2 --answers 3 --show";
    assert!(shown(&folder, show).contains("00 00 \x1b[1;31m34\x1b[0m "));
}

/// It is told on standard error, and cleared before the verdict. Work of under a
/// second needs none: here it takes longer, since the file comes late.
#[test]
fn progress() {
    let folder = Folder::with_sample();
    let late = "rm -f pipe; mkfifo pipe; (sleep 1.2; cat s.drv >pipe) &";
    let verdict = "pipe: \x1b[1;32maccepted\x1b[0m, 2 segments, 4 sites\n";
    let progress = "\r\x1b[K1 of 1: pipe, segment 1 of 2\r\x1b[K";
    let text = shown(&folder, &format!("{late} \"$NEMOD\" check pipe"));
    assert!(
        text.starts_with(&format!("{progress}{verdict}")),
        "{text:?}"
    );
    let quick = shown(&folder, "\"$NEMOD\" check s.drv");
    assert!(!quick.contains("1 of 1"), "{quick:?}");
    // Lines that go elsewhere need no room on the terminal until the end.
    let text = shown(&folder, &format!("{late} \"$NEMOD\" check pipe >out"));
    assert_eq!(text, progress);
    // Without a terminal nothing is told.
    let text = shown(&folder, &format!("{late} \"$NEMOD\" check -q pipe 2>out"));
    assert_eq!((text.as_str(), folder.get("out").as_slice()), ("", &[][..]));
}
