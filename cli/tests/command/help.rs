//! The help texts.

use crate::run::{says, Folder};

pub const COMMANDS: [&str; 10] = [
    "check", "info", "list", "segment", "ordinal", "name", "module", "resource", "prepare",
    "explain",
];

#[test]
fn all_commands_are_in_the_help() {
    let folder = Folder::new();
    let answer = folder.nemod(&["--help"]);
    assert_eq!((answer.status, answer.errors.as_str()), (Some(0), ""));
    assert!(answer.output.starts_with("usage: nemod COMMAND ...\n"));
    let lines = answer.output.lines();
    let lines = lines.skip_while(|line| *line != "commands:").skip(1);
    let lines = lines.take_while(|line| !line.is_empty());
    let listed = lines.filter_map(|line| line.strip_prefix("  ")?.split(' ').next());
    assert!(listed.eq(COMMANDS), "{}", answer.output);
    assert!(answer.output.lines().all(|line| line.len() <= 80));
    for same in ["-h", "help"] {
        assert_eq!(folder.nemod(&[same]), answer);
    }
}

#[test]
fn help_of_a_command() {
    let expected = "usage: nemod name [OPTION...] FILE (NAME | --number N)

Shows a name's number, text, ordinal and place. NAME is compared byte by byte,
and case matters; the first string of each of the two lists is found by its
number only. After -- a NAME may start with a hyphen.

options:
  --number N            The name of this number; resident names come first.
  --json                Write the answer as a JSON object on a line.
  -h, --help            This help.
";
    assert_eq!(Folder::new().nemod(&["name", "--help"]), says(0, expected));
}

/// Help needs no operands, and wins over wrong ones.
#[test]
fn each_command_has_help() {
    let folder = Folder::new();
    for command in COMMANDS {
        let answer = folder.nemod(&[command, "--help"]);
        assert_eq!((answer.status, answer.errors.as_str()), (Some(0), ""));
        let usage = format!("usage: nemod {command} ");
        assert!(answer.output.starts_with(&usage), "{}", answer.output);
        let longest = answer.output.lines().map(str::len).max();
        assert!(longest <= Some(80), "{}", answer.output);
        let own = "  -h, --help            This help.\n";
        assert!(answer.output.ends_with(own), "{}", answer.output);
        for same in [
            &[command, "-h"][..],
            &["help", command],
            &["--help", command],
        ] {
            assert_eq!(folder.nemod(same), answer);
        }
        assert_eq!(
            folder.nemod(&[command, "1", "2", "3", "4", "--help"]),
            answer
        );
    }
}

#[test]
fn version() {
    let expected = format!("nemod {}\n", env!("CARGO_PKG_VERSION"));
    for option in ["--version", "-V"] {
        assert_eq!(Folder::new().nemod(&[option]), says(0, &expected));
    }
}

/// The options of a command's help, each as it is spelled: `-o`, `--output`.
pub fn options(folder: &Folder, command: &str) -> Vec<String> {
    let help = folder.nemod(&["help", command]).output;
    let lines = help.lines().skip_while(|line| *line != "options:").skip(1);
    let spelled = lines.flat_map(|line| line[..24].split([' ', ',']));
    spelled
        .filter(|word| word.starts_with('-'))
        .map(str::to_string)
        .collect()
}
