//! What is left in lent memory, as a part of the answer.

use crate::answer::Answer;
use crate::bytes;
use crate::calls::list::Listed;
use crate::calls::{Held, Listing, Prepared, Preparing, Stepped, Stepping};
use crate::results::PrepareResult;
use reference::Refused;

/// Output of 3 bytes and 2 marks.
fn request() -> Preparing {
    Preparing {
        number: 1,
        selectors: Held::NothingAt(1),
        answers: Held::NothingAt(3),
        output: Held::These(vec![7, 8, 9]),
        marks: Held::These(vec![5, 6]),
    }
}

fn result(refusal: u32, record: u32, sites: u32) -> PrepareResult {
    PrepareResult {
        refusal,
        record,
        sites,
    }
}

/// The answer of a function that leaves these.
fn left(result: PrepareResult, output: [u8; 3], marks: [u8; 2]) -> Answer<Prepared, Refused> {
    request().answered(|lent, lent_marks| {
        assert_eq!((&*lent, &*lent_marks), (&[7, 8, 9][..], &[5, 6][..]));
        lent.copy_from_slice(&output);
        lent_marks.copy_from_slice(&marks);
        result
    })
}

#[test]
fn acceptance_has_all_that_is_left() {
    let expected = Prepared {
        sites: 4,
        output: vec![1, 2, 9],
        marks: vec![1, 0],
    };
    let answer = left(result(0, 0, 4), [1, 2, 9], [1, 0]);
    assert_eq!(answer, Answer::Accepted(expected));
    let other = left(result(0, 0, 4), [1, 2, 8], [1, 0]);
    assert_ne!(answer, other);
    let other = left(result(0, 0, 4), [1, 2, 9], [1, 5]);
    assert_ne!(answer, other);
}

#[test]
fn a_refusal_leaves_output_and_no_marks() {
    for (number, record) in [(1, 0), (21, 0), (22, 1), (25, 65_535)] {
        let answer = left(result(number, record, 0), [7, 8, 9], [0, 0]);
        assert_eq!(answer, Answer::Refused(Refused { number, record }));
    }
}

#[test]
fn anything_else_is_unclean() {
    let unclean = [
        left(result(8, 0, 0), [7, 8, 9], [5, 6]),
        left(result(8, 0, 0), [7, 8, 9], [0, 1]),
        left(result(8, 0, 0), [7, 8, 0], [0, 0]),
        left(result(8, 0, 1), [7, 8, 9], [0, 0]),
        left(result(0, 1, 0), [7, 8, 9], [0, 0]),
    ];
    for answer in unclean {
        assert!(matches!(answer, Answer::Unclean { .. }), "{answer}");
    }
}

#[test]
fn a_step_has_the_whole_buffer() {
    let request = Stepping {
        record: [0; 8],
        answer: 0,
        selectors: Held::NothingAt(1),
        buffer: Held::These(vec![1, 2, 3]),
    };
    let answer = request.answered(|buffer| buffer[2] = 9);
    let buffer = vec![1, 2, 9];
    assert_eq!(answer, Answer::Accepted(Stepped { buffer }));
}

#[test]
fn a_listing_has_its_length_and_the_whole_room() {
    let request = Listing::in_room(4);
    let answer = request.answered(|room| {
        room[1] = 9;
        77
    });
    let (length, room) = (77, vec![1, 9, 3, 4]);
    assert_eq!(answer, Answer::Accepted(Listed { length, room }));
    for (text, room) in [
        ("", [1, 2, 3, 4]),
        ("ab", *b"ab\x03\x04"),
        ("abcde", *b"abcd"),
    ] {
        let (length, room) = (text.len(), room.to_vec());
        let says = Answer::Accepted(Listed { length, room });
        assert_eq!(request.says(text), says);
    }
}

#[test]
fn fillers_differ_from_0_and_from_their_neighbours() {
    for length in [0, 1, 254, 255, 256, 65_536] {
        let bytes = Held::filled(length, 200);
        assert_eq!(bytes.len(), length);
        assert!(bytes.iter().all(|byte| *byte != 0));
        assert!(bytes.windows(2).all(|pair| pair[0] != pair[1]));
    }
    assert_ne!(Held::filled(9, 0), Held::filled(9, 1));
}

#[test]
fn long_bytes_are_not_printed_whole() {
    let mut bytes = vec![0; 70_000];
    assert!(bytes::text(&bytes).len() < 300);
    assert_eq!(bytes::text(&[1, 0xAB]), "[01 AB] of 2 bytes");
    let others = bytes.clone();
    assert_eq!(bytes::beside(&bytes, &others), "as the other");
    bytes[66_000] = 0xCD;
    let text = bytes::beside(&bytes, &others);
    assert!(text.starts_with("CD at 66000, from 65968 on [00 "));
    assert!(text.len() < 300);
    assert_ne!(text, bytes::beside(&others, &bytes));
}
