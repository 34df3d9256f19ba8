//! The edges of the name query by bytes.

mod first_match;
mod first_strings;
mod lengths;
mod text;

use super::header::HeaderEdges;
use super::judge::{self, Edges};
use super::minimal::Minimal;
use super::names::{self, NameEdges, NameImages};
use crate::calls::{FieldsOf, NameByBytes, Text};

type Judge = judge::Judge<NameByBytes>;

pub fn by_subject() -> Vec<Edges<NameByBytes>> {
    names::by_subject(&[
        ("exact bytes (17)", text::edges),
        ("lengths of what is asked for (17)", lengths::edges),
        ("first strings (17)", first_strings::edges),
        ("first match", first_match::edges),
    ])
}

impl NameEdges for NameByBytes {
    fn request_for(_: u32, text: &[u8]) -> Text {
        Text::of(text)
    }

    const NOT_THERE: u32 = 17;
}

impl HeaderEdges for NameByBytes {
    type Images = NameImages;

    fn asked() -> Text {
        Text::of(b"A")
    }

    /// The first string, others, and names that no list can hold.
    fn others() -> Vec<Text> {
        let long = [b'A'; 300];
        let asked: [&[u8]; 8] = [b"", b"M", b"a", b"AA", b"\0", b"\xFF", &long[..256], &long];
        asked.into_iter().map(Text::of).collect()
    }

    const WITHOUT_TABLES: Result<FieldsOf<Self>, u32> = Err(names::WITHOUT_TABLES);
}

/// The name is found.
fn finds(judge: &mut Judge, name: &str, image: &Minimal, text: &[u8], fields: [u32; 4]) {
    judge.accepts(name, image, Text::of(text), fields);
}

/// It isn't.
fn misses(judge: &mut Judge, name: &str, image: &Minimal, text: &[u8]) {
    judge.refuses(name, image, Text::of(text), 17);
}
