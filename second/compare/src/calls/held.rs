//! Lists and bytes that a request lends beside the image.

use crate::library::{Lent, Room};
use builder::Random;

/// Addresses that nothing stands at: null, odd ones, and the last.
const ADDRESSES: [usize; 4] = [0, 1, 3, usize::MAX];

/// What is lent; none of it may be handed over at any address.
#[derive(Clone, Debug, PartialEq, Eq, PartialOrd, Ord)]
pub enum Held<T> {
    These(Vec<T>),
    NothingAt(usize),
}

impl<T> Held<T> {
    /// These, or nothing at some address now and then where there are none.
    pub fn drawn(items: Vec<T>, random: &mut Random) -> Self {
        match items.is_empty() && random.chance(50) {
            true => Held::NothingAt(random.pick(&ADDRESSES)),
            false => Held::These(items),
        }
    }

    pub fn items(&self) -> &[T] {
        match self {
            Held::These(items) => items,
            Held::NothingAt(_) => &[],
        }
    }

    pub fn lent(&self) -> Lent<'_, T> {
        match self {
            Held::These(items) => Lent::These(items),
            Held::NothingAt(address) => Lent::NothingAt(*address),
        }
    }

    /// How many there are, as it is printed.
    pub fn text(&self) -> String {
        match self {
            Held::These(items) => items.len().to_string(),
            Held::NothingAt(address) => format!("0 at address {address:X}h"),
        }
    }
}

impl Held<u8> {
    /// Bytes that differ from 0 and from their neighbours: 1 to 255, over and
    /// over, from any of these on.
    pub fn filled(length: usize, start: usize) -> Vec<u8> {
        let mut all: Vec<u8> = (1..=255).collect();
        all.rotate_left(start % 255);
        let mut bytes = all.repeat(length.div_ceil(255));
        bytes.truncate(length);
        bytes
    }

    /// The room that a copy of these bytes is.
    pub fn room<'a>(&self, copy: &'a mut [u8]) -> Room<'a> {
        match self {
            Held::These(_) => Room::These(copy),
            Held::NothingAt(address) => Room::NothingAt(*address),
        }
    }
}

/// So many numbers of a list are drawn; the others follow from one draw, since
/// some lists are long.
const DRAWN: usize = 64;

/// Numbers that are often an edge.
pub fn selectors(count: usize, random: &mut Random) -> Vec<u16> {
    let mut drawn: Vec<u16> = (0..count.min(DRAWN)).map(|_| random.edge_u16()).collect();
    drawn.extend(more(count, random).map(|number| number as u16));
    drawn
}

/// Numbers that are often an edge.
pub fn answers(count: usize, random: &mut Random) -> Vec<u32> {
    let mut drawn: Vec<u32> = (0..count.min(DRAWN)).map(|_| random.edge_u32()).collect();
    drawn.extend(more(count, random).map(|number| number as u32));
    drawn
}

fn more(count: usize, random: &mut Random) -> impl Iterator<Item = u64> {
    let start = random.next_u64();
    let spread = |number: u64| number.wrapping_mul(0x9E37_79B9_7F4A_7C15) >> 32;
    (DRAWN..count).map(move |index| spread(start.wrapping_add(index as u64)))
}
