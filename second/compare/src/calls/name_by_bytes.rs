//! The name query by bytes.

use super::{Query, Text};
use crate::edges::{self, judge::Edges};
use crate::inputs::Input;
use crate::library::{self, Lent};
use crate::results::NameResult;
use crate::stated;
use builder::Random;
use reference::Name;

/// Asks for a name by its exact bytes.
pub struct NameByBytes;

impl Query for NameByBytes {
    type Request = Text;
    type Values = Name;
    type Why = u32;
    type Result = NameResult;

    const NAME: &'static str = "ne_name_by_bytes";
    const ANSWERS: &'static [u32] = &[0, 1, 2, 3, 4, 5, 6, 7, 16, 17];

    fn exported(image: Lent, name: &Text) -> NameResult {
        library::name_by_bytes(image, name.lent())
    }

    fn reference(image: &[u8], name: &Text) -> Result<Name, u32> {
        reference::name_by_bytes(image, name.bytes())
    }

    fn worth_asking(input: &Input, request: u64, random: &mut Random) -> Text {
        let names = stated::names(&input.bytes);
        text_to_ask(&names, request, random)
    }

    fn edges_by_subject() -> Vec<Edges<Self>> {
        edges::name_by_bytes::by_subject()
    }
}

/// The lengths of random names: under the least, and over the greatest.
const LENGTHS: [usize; 6] = [0, 1, 2, 255, 256, 300];
/// Where an empty name may be said to stand.
const ADDRESSES: [usize; 3] = [0, 1, usize::MAX];

/// Strings of the lists as they stand there, then changed ones, then others.
fn text_to_ask(names: &[stated::Name], request: u64, random: &mut Random) -> Text {
    let found = string_of(names, |name| !name.first, random);
    let last = names.last().map_or(found, |name| name.text);
    let first = string_of(names, |name| name.first, random);
    let any = string_of(names, |_| true, random);
    match request {
        0 => Text::of(found),
        1 => Text::of(last),
        2 => Text::of(first),
        3 => Text::Bytes(with_a_byte_changed(any, random)),
        4 => Text::of(&any[..random.below(any.len())]),
        5 => Text::Bytes(longer(any, random)),
        6 => Text::Bytes(random_bytes(random.pick(&LENGTHS), random)),
        _ if random.one_in(4) => Text::NothingAt(random.pick(&ADDRESSES)),
        // The length's low byte is that of a string.
        _ => Text::Bytes([any, &random_bytes(256, random)].concat()),
    }
}

/// A string that `wanted` holds for, or some letters where there is none.
fn string_of<'a>(
    names: &[stated::Name<'a>],
    wanted: impl Fn(&stated::Name) -> bool,
    random: &mut Random,
) -> &'a [u8] {
    let wanted: Vec<&stated::Name> = names.iter().filter(|name| wanted(name)).collect();
    match wanted.is_empty() {
        true => b"ABC",
        false => random.pick(&wanted).text,
    }
}

/// Often in a letter's case only.
fn with_a_byte_changed(text: &[u8], random: &mut Random) -> Vec<u8> {
    let mut changed = text.to_vec();
    let at = random.below(text.len());
    changed[at] ^= random.pick(&[0x20, 0x20, 0x01, 0x80, 0xFF]);
    changed
}

/// By a byte at either end.
fn longer(text: &[u8], random: &mut Random) -> Vec<u8> {
    let more = random.pick(&[0, b'A', 0xFF]);
    match random.chance(70) {
        true => [text, &[more]].concat(),
        // The length byte stands before the text in a list.
        false => [&[text.len() as u8], text].concat(),
    }
}

fn random_bytes(length: usize, random: &mut Random) -> Vec<u8> {
    let mut bytes = vec![0; length];
    random.fill(&mut bytes);
    bytes
}
