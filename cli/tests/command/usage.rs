//! Wrong command lines.

use crate::run::{fails, Folder};

/// Expects a message and the hint behind it.
#[track_caller]
fn wrong(arguments: &[&str], message: &str, hint: &str) {
    let expected = format!("nemod: {message}\nTry 'nemod {hint}'.\n");
    assert_eq!(Folder::with_sample().nemod(arguments), fails(&expected));
}

#[test]
fn commands() {
    wrong(&[], "a command is missing", "--help");
    wrong(&["chek"], "unknown command 'chek'", "--help");
    wrong(&[""], "unknown command ''", "--help");
    wrong(&["\x1B[2J"], "unknown command '\\x1B[2J'", "--help");
    wrong(&["--json"], "unknown option '--json'", "--help");
    wrong(&["--help", "chek"], "unknown command 'chek'", "--help");
    wrong(&["help", "check", "1"], "extra argument '1'", "--help");
    wrong(&["--version", "1"], "extra argument '1'", "--help");
}

#[test]
fn options() {
    let check = "check --help";
    wrong(&["check", "--jsn"], "check: unknown option '--jsn'", check);
    wrong(&["check", "-j"], "check: unknown option '-j'", check);
    wrong(
        &["check", "--show", "x"],
        "check: unknown option '--show'",
        check,
    );
    wrong(
        &["check", "--json=1"],
        "check: --json takes no value",
        check,
    );
    wrong(&["check", "-qx"], "check: unknown option '-x'", check);
    wrong(&["check", "-q=1"], "check: unknown option '-='", check);
    wrong(
        &["check", "-qq", "x"],
        "check: --quiet is given twice",
        check,
    );
    wrong(
        &["check", "-0", "x"],
        "check: --null needs --files-from",
        check,
    );
    let both = ["check", "--work", "1", "--all", "x"];
    wrong(&both, "check: give either --work or --all", check);
    let twice = ["check", "--json", "--json", "s.drv"];
    wrong(&twice, "check: --json is given twice", check);
    let name = "name --help";
    wrong(
        &["name", "s.drv", "--number"],
        "name: --number needs a value",
        name,
    );
    let prepare = "prepare --help";
    let option = ["prepare", "s.drv", "1", "--selectors", "--show"];
    wrong(&option, "prepare: --selectors needs a value", prepare);
    wrong(
        &["prepare", "s.drv", "1", "-o"],
        "prepare: --output needs a value",
        prepare,
    );
}

#[test]
fn operands() {
    wrong(&["check"], "check: FILE is missing", "check --help");
    wrong(
        &["check", "--json"],
        "check: FILE is missing",
        "check --help",
    );
    wrong(&["info"], "info: FILE is missing", "info --help");
    wrong(
        &["info", "a", "b"],
        "info: extra argument 'b'",
        "info --help",
    );
    wrong(&["list"], "list: FILE is missing", "list --help");
    wrong(
        &["segment", "s.drv"],
        "segment: NUMBER is missing",
        "segment --help",
    );
    wrong(&["ordinal"], "ordinal: FILE is missing", "ordinal --help");
    let extra = ["module", "s.drv", "1", "2"];
    wrong(&extra, "module: extra argument '2'", "module --help");
    wrong(
        &["resource", "s.drv"],
        "resource: NUMBER is missing",
        "resource --help",
    );
    let alone = ["resource", "s.drv", "icon"];
    wrong(&alone, "resource: ID is missing", "resource --help");
    wrong(
        &["resource", "s.drv", "ico", "1"],
        "resource: 'ico' is no type's name and not a number of 32 bits",
        "resource --help",
    );
    let both = ["segment", "s.drv", "1", "--json", "-o-"];
    let message = "segment: --json and --output - both write to standard output";
    wrong(&both, message, "segment --help");
    let extra = ["resource", "s.drv", "1", "2", "3"];
    wrong(&extra, "resource: extra argument '3'", "resource --help");
    wrong(
        &["prepare", "s.drv"],
        "prepare: SEGMENT is missing",
        "prepare --help",
    );
    wrong(
        &["explain", "1", "2"],
        "explain: extra argument '2'",
        "explain --help",
    );
}

#[test]
fn name_or_number() {
    let either = "name: give either NAME or --number";
    wrong(&["name", "s.drv"], either, "name --help");
    let both = ["name", "s.drv", "Alpha", "--number", "1"];
    wrong(&both, either, "name --help");
}

#[test]
fn numbers() {
    let not = |text: &str| format!("segment: '{text}' is not a number");
    for text in ["", "x", "0x", "1x", "+1", "1 ", "0x-1", "é"] {
        let shown = if text == "é" { "\\xC3\\xA9" } else { text };
        wrong(&["segment", "s.drv", text], &not(shown), "segment --help");
    }
    let over = "ordinal: 4294967296 is over 4294967295 (0xFFFFFFFF)";
    wrong(&["ordinal", "s.drv", "4294967296"], over, "ordinal --help");
    let negative = ["segment", "s.drv", "-1"];
    wrong(&negative, "segment: unknown option '-1'", "segment --help");
    wrong(
        &["explain", "x"],
        "explain: 'x' is not a number",
        "explain --help",
    );
}
