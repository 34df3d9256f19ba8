//! Words of flags that the samples don't have.

use super::*;

#[test]
fn flags() {
    let table: [(Vec<&str>, &[&str]); 8] = [
        (of_module(0), &["program", "no data segment of its own"]),
        (of_module(0x8001), &["library", "one data segment"]),
        (
            of_module(0x0A0A),
            &[
                "program",
                "a data segment for each instance",
                "protected mode",
                "self-loading",
            ],
        ),
        (of_segment(0), &["code", "fixed", "load on call"]),
        (
            of_segment(0x1150),
            &["code", "movable", "preload", "fixups", "discardable"],
        ),
        (
            of_segment(0xF379),
            &[
                "data",
                "iterated",
                "movable",
                "shareable",
                "preload",
                "fixups",
                "debugging information",
                "discardable",
            ],
        ),
        (
            of_resource(0x0C30),
            &["movable", "shareable", "load on call"],
        ),
        (of_resource(0x1040), &["fixed", "preload", "discardable"]),
    ];
    for (words, expected) in table {
        assert_eq!(words, expected);
    }
}

#[test]
fn types() {
    for (number, names) in TYPES {
        assert_eq!(of_type(number | NUMBER), Some(names[0]));
        for name in *names {
            assert_eq!(type_named(name), Some(u32::from(number | NUMBER)));
            assert_eq!(
                type_named(&name.to_uppercase()),
                Some(u32::from(number | NUMBER))
            );
        }
        // A type without the bit is the place of a name.
        assert_eq!(of_type(*number), None);
    }
    assert_eq!(of_type(0x8011), None);
    assert_eq!(type_named("ico"), None);
}

#[test]
fn words() {
    for (number, word) in [
        (0, 0x8000),
        (1, 0x8001),
        (0x7FFF, 0xFFFF),
        (0x8000, 0x8000),
        (0xFFFF, 0xFFFF),
        (0x10000, 0x10000),
    ] {
        assert_eq!(word_of(number), word);
    }
    assert_eq!(number_of(0x8007), Some(7));
    assert_eq!(number_of(0x0007), None);
}
