//! What is asked for.

mod listing;
mod numbers;
mod preparing;
mod stepping;
mod texts;
mod words;

use crate::calls::{Query, Request};
use crate::inputs::Input;
use builder::special::special;
use builder::Random;
use std::collections::BTreeSet;

fn input(name: &str) -> Input {
    Input {
        bytes: special(name).expect("a special image").make().image.bytes,
        origin: name.to_string(),
        segment: None,
    }
}

/// Bytes that state nothing.
fn without_header(length: usize) -> Input {
    Input {
        bytes: vec![0xFF; length],
        origin: "no header".to_string(),
        segment: None,
    }
}

/// All that a request asks for.
fn asked<Q: Query>(input: &Input, request: u64) -> BTreeSet<Q::Request>
where
    Q::Request: Ord,
{
    let mut random = Random::new(request);
    (0..2_000)
        .map(|_| Q::worth_asking(input, request, &mut random))
        .collect()
}

/// They can be told apart in a report.
#[test]
fn requests_are_printed() {
    use crate::calls::{Listing, Text, Whole};
    assert_eq!(Whole.text(), "the image");
    assert_eq!(Listing::in_room(3).text(), "room of 3 bytes");
    assert_eq!(7u32.text(), "number 7");
    assert_eq!((0x8001, 0x1_0002).text(), "type 8001h, id 10002h");
    assert_eq!(Text::of(b"A\0\"").text(), "name \"A\\x00\\\"\" of 3 bytes");
    assert_eq!(Text::of(b"").text(), "name \"\" of 0 bytes");
    assert_eq!(Text::NothingAt(1).text(), "no name, at address 1h");
    assert_eq!(Text::NothingAt(1).bytes(), b"");
}
