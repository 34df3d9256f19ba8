//! All commands with their help texts.

use super::{Command, Opt};
use crate::{check, explain, info, list, prepare, query};

/// An option without a letter.
const fn option(name: &'static str, value: Option<&'static str>, text: &'static str) -> Opt {
    let letter = None;
    Opt {
        name,
        letter,
        value,
        text,
    }
}

/// The same with a letter.
const fn short(letter: char, option: Opt) -> Opt {
    let letter = Some(letter);
    Opt { letter, ..option }
}

const JSON: Opt = option(
    "--json",
    None,
    "Write the answer as a JSON object on a line.",
);

const OUTPUT: Opt = short(
    'o',
    option(
        "--output",
        Some("OUT"),
        "Write the bytes to the file OUT; - is standard output.",
    ),
);

pub static COMMANDS: [Command; 10] = [
    Command {
        name: "check",
        usage: "[OPTION...] FILE...",
        operands: &["FILE"],
        least: 0,
        repeats: true,
        options: &[
            option(
                "--segments",
                None,
                "Check only what is loaded: header, entries, segments.",
            ),
            option(
                "--json",
                None,
                "Write a JSON object on a line for each file, no summary.",
            ),
            option("--refused", None, "Leave out the files that are accepted."),
            short(
                'q',
                option("--quiet", None, "Write nothing; the exit status tells."),
            ),
            short(
                'r',
                option("--recursive", None, "Check the files in folders."),
            ),
            option(
                "--files-from",
                Some("LIST"),
                "Check the files named in LIST, a line each.",
            ),
            short(
                '0',
                option("--null", None, "Names in LIST end with a byte 0."),
            ),
            option(
                "--work",
                Some("N"),
                "Take at most N steps on a file (1,073,741,824).",
            ),
            option(
                "--all",
                None,
                "Check all of each file, however long it takes.",
            ),
        ],
        summary: "say whether files are accepted",
        text: "\
Checks everything of each FILE that is ever read: its header, its entry table,
its names, the names of its modules, its resources and their data, and each of
its segments, which is prepared with stand-ins for the addresses, on which no
refusal depends. A file is accepted only if all of it is. All files are checked,
whatever is found; but the work on one file has a limit, and a file over it is
not accepted: 'too much work'.",
        run: check::run,
    },
    Command {
        name: "info",
        usage: "[OPTION...] FILE",
        operands: &["FILE"],
        least: 1,
        repeats: false,
        options: &[
            JSON,
            option(
                "--all",
                None,
                "Show all names and resources, however long it takes.",
            ),
        ],
        summary: "show a file's verdict and its tables",
        text: "\
Says what 'nemod check' says of FILE, then shows its header, its segments, its
entry points, its names, its modules and its resources. A table that is refused
says so, and the others are still shown; of a header that is refused what can be
read is shown, marked as unchecked. Bytes of a name that are not printable ASCII
stand as \\xHH. Of names and resources only the first are shown where there are
many in a long file.",
        run: info::run,
    },
    Command {
        name: "list",
        usage: "FILE",
        operands: &["FILE"],
        least: 1,
        repeats: false,
        options: &[],
        summary: "list the ordinals of a file",
        text: "\
Writes what the listing program writes, for a file of any size: the number of
ordinals, then a line for each entry point with its ordinal, segment, offset and
flag, then 'end'; or 'refused' and a number.",
        run: list::run,
    },
    Command {
        name: "segment",
        usage: "[OPTION...] FILE NUMBER",
        operands: &["FILE", "NUMBER"],
        least: 2,
        repeats: false,
        options: &[JSON, OUTPUT],
        summary: "show a segment, or write its stored bytes to a file",
        text: "\
Shows the number and the place of a segment's stored bytes, its allocation, its
flags and the number of its fixup records.",
        run: query::segment,
    },
    Command {
        name: "ordinal",
        usage: "[OPTION...] FILE NUMBER",
        operands: &["FILE", "NUMBER"],
        least: 2,
        repeats: false,
        options: &[JSON],
        summary: "show the entry point of an ordinal",
        text: "Shows the segment, the offset and the flag of an ordinal's entry point.",
        run: query::ordinal,
    },
    Command {
        name: "name",
        usage: "[OPTION...] FILE (NAME | --number N)",
        operands: &["FILE", "NAME"],
        least: 1,
        repeats: false,
        options: &[
            option(
                "--number",
                Some("N"),
                "The name of this number; resident names come first.",
            ),
            JSON,
        ],
        summary: "find a name",
        text: "\
Shows a name's number, text, ordinal and place. NAME is compared byte by byte,
and case matters; the first string of each of the two lists is found by its
number only. After -- a NAME may start with a hyphen.",
        run: query::name,
    },
    Command {
        name: "module",
        usage: "[OPTION...] FILE NUMBER",
        operands: &["FILE", "NUMBER"],
        least: 2,
        repeats: false,
        options: &[JSON],
        summary: "show an imported module's name",
        text: "Shows the name of an imported module and its place.",
        run: query::module,
    },
    Command {
        name: "resource",
        usage: "[OPTION...] FILE (NUMBER | TYPE ID)",
        operands: &["FILE", "NUMBER", "ID"],
        least: 2,
        repeats: false,
        options: &[JSON, OUTPUT],
        summary: "find a resource, or write its data to a file",
        text: "\
Shows a resource's type and id, the length and the place of its data, and its
flags. NUMBER counts through all types. TYPE is a name (cursor, bitmap, icon,
menu, dialog, string, fontdir, font, accelerator, rcdata, group_cursor,
group_icon, nametable, version) or a number, and ID is a number; both may have
the bit 0x8000, which they have in the file.",
        run: query::resource,
    },
    Command {
        name: "prepare",
        usage: "OPTION... FILE SEGMENT",
        operands: &["FILE", "SEGMENT"],
        least: 2,
        repeats: false,
        options: &[
            option(
                "--selectors",
                Some("LIST"),
                "The selector of each segment of the module.",
            ),
            option(
                "--answers",
                Some("LIST"),
                "The address of each fixup record's import.",
            ),
            OUTPUT,
            option(
                "--show",
                None,
                "Show the bytes in hexadecimal, those of fixups marked.",
            ),
        ],
        summary: "prepare a segment for loading",
        text: "\
Writes the segment's stored bytes and zeros up to its allocation, with all its
fixups done, and says how many sites they have. -o, --show or both are needed.
OUT is replaced when all else went well. LIST is numbers with commas between
them, or @PATH for a file of numbers with blanks, newlines or commas between
them. A list that is left out is empty; longer ones than needed are fine. An
address has the selector in its high word and the offset in its low word.",
        run: prepare::run,
    },
    Command {
        name: "explain",
        usage: "[OPTION...] [NUMBER]",
        operands: &["NUMBER"],
        least: 0,
        repeats: false,
        options: &[JSON],
        summary: "say what a refusal means and what can be done",
        text: "\
Says what the refusal of this number means and what can be done. Without NUMBER
all refusals are listed.",
        run: explain::run,
    },
];
