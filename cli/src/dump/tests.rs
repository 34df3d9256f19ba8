//! The two styles on one segment. The command is only ever tested without a
//! terminal.

use super::{Dump, Style};

/// 18 bytes, 17 of them stored, with two spans: 2 to 3 and 15 to 16.
fn lines(style: Style) -> Vec<String> {
    let stored = *b"AB\x00\x10 ~\x7F\\01234567\xFF";
    let mut marks = [0; 17];
    let mut bytes = [0; 18];
    bytes[..17].copy_from_slice(&stored);
    for (place, byte) in [(2, 0x34), (3, 0x10), (15, b'7'), (16, 0)] {
        marks[place] = 1;
        bytes[place] = byte;
    }
    let dump = Dump {
        bytes: &bytes,
        stored: &stored,
        marks: &marks,
        style,
    };
    dump.lines().collect()
}

#[test]
fn signs() {
    let expected = [
        "0000  41 42 34*10+20 7E 7F 5C 30 31 32 33 34 35 36 37+ |AB4. ~.\\01234567|",
        "0010  00*00                                            |..|",
        "* changed by a fixup, + in a fixup's span and as stored",
    ];
    assert_eq!(lines(Style::Signs), expected);
}

#[test]
fn colours() {
    let expected = [
        "0000  41 42 \x1b[1;31m34\x1b[0m \x1b[1;32m10\x1b[0m 20 7E 7F 5C 30 31 32 33 34 35 36 \
         \x1b[1;32m37\x1b[0m  |AB4. ~.\\01234567|",
        "0010  \x1b[1;31m00\x1b[0m 00                                            |..|",
        "\x1b[1;31mchanged by a fixup\x1b[0m, \x1b[1;32min a fixup's span and as stored\x1b[0m",
    ];
    assert_eq!(lines(Style::Colours), expected);
}
