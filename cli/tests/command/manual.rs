//! The manual page and the completion say what the help says.

use crate::help::{options, COMMANDS};
use crate::run::Folder;
use std::path::{Path, PathBuf};
use std::process::Command;

fn file(name: &str) -> PathBuf {
    Path::new(env!("CARGO_MANIFEST_DIR")).join(name)
}

/// The page, with plain hyphens.
fn page() -> String {
    let text = std::fs::read_to_string(file("nemod.1")).expect("a manual page");
    text.replace("\\-", "-")
}

#[test]
fn every_command_has_a_synopsis_and_a_section() {
    let page = page();
    let sections: String = page
        .lines()
        .filter(|line| line.starts_with(".SS"))
        .collect();
    for command in COMMANDS {
        let synopsis = format!("\n.B nemod {command}\n");
        assert!(page.contains(&synopsis), "{command}");
        assert!(sections.contains(&format!("nemod {command}")), "{command}");
    }
}

/// Every option starts a paragraph, by its letter too.
#[test]
fn every_option_is_explained() {
    let (page, folder) = (page(), Folder::new());
    let starts: Vec<&str> = page
        .split("\n.TP\n")
        .filter_map(|part| part.lines().next())
        .collect();
    let words = starts
        .iter()
        .flat_map(|line| line.split([' ', ',', '"', '\\']));
    let explained: Vec<&str> = words.filter(|word| word.starts_with('-')).collect();
    for command in COMMANDS {
        for option in options(&folder, command) {
            assert!(explained.contains(&option.as_str()), "{command} {option}");
        }
    }
}

#[test]
fn the_version_is_the_same() {
    let title = format!("\"Parchgable {}\"", env!("CARGO_PKG_VERSION"));
    let page = page();
    let first = page.lines().next().expect("a title");
    assert!(first.starts_with(".TH NEMOD 1 ") && first.contains(&title));
}

/// Where there is a `man`, it has nothing to say against the page.
#[test]
fn the_page_has_no_warnings() {
    let mut man = Command::new("man");
    man.args(["--warnings", "--local-file"])
        .arg(file("nemod.1"));
    let Ok(output) = man.env("LC_ALL", "C.UTF-8").env("MANWIDTH", "100").output() else {
        return;
    };
    let errors = String::from_utf8_lossy(&output.stderr);
    assert_eq!((output.status.code(), errors.as_ref()), (Some(0), ""));
    assert!(String::from_utf8_lossy(&output.stdout).contains("JSON OUTPUT"));
}

/// What bash offers for the last word.
fn completions(folder: &Folder, words: &[&str]) -> Vec<String> {
    let script = file("nemod.bash");
    let last = words.len() - 1;
    let line =
        format!(
        ". '{}'; COMP_WORDS=({}) COMP_CWORD={last}; _nemod; printf '%s\\n' \"${{COMPREPLY[@]}}\"",
        script.display(),
        words.iter().map(|word| format!("'{word}' ")).collect::<String>(),
    );
    let answer = folder.shell(&line);
    assert_eq!((answer.status, answer.errors.as_str()), (Some(0), ""));
    let offered = answer.output.lines().filter(|line| !line.is_empty());
    offered.map(str::to_string).collect()
}

#[test]
fn completion() {
    let folder = Folder::new();
    let all = completions(&folder, &["nemod", ""]);
    let expected = COMMANDS.into_iter().chain(["help", "--help", "--version"]);
    assert!(all.iter().eq(expected), "{all:?}");
    assert!(completions(&folder, &["nemod", "help", ""])
        .iter()
        .eq(COMMANDS));
    for command in COMMANDS {
        let offered = completions(&folder, &["nemod", command, "-"]);
        assert_eq!(offered, options(&folder, command), "{command}");
    }
    let table: [(&[&str], &[&str]); 9] = [
        (&["nemod", "ch"], &["check"]),
        (&["nemod", "check", "--f"], &["--files-from"]),
        (&["nemod", "check", "file", "--w"], &["--work"]),
        (
            &["nemod", "explain", "2"],
            &["2", "20", "21", "22", "23", "24", "25", "26"],
        ),
        (&["nemod", "resource", "file", "ic"], &["icon"]),
        (
            &["nemod", "resource", "file", "group"],
            &["group_cursor", "group_icon"],
        ),
        // Files are bash's to offer.
        (&["nemod", "resource", ""], &[]),
        (&["nemod", "check", ""], &[]),
        (&["nemod", "check", "--work", ""], &[]),
    ];
    for (words, expected) in table {
        assert_eq!(completions(&folder, words), expected, "{words:?}");
    }
}
