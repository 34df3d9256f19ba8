//! Entry tables of many bundles, and the order in which their ordinals are asked
//! for.

use crate::inputs::noise::Noise;
use std::fmt;

/// A segment byte and a count of entries.
pub type Bundle = (u8, u8);

/// The segment byte of null entries.
pub const NULL: u8 = 0;
/// That of entries in segment 2.
pub const FIXED: u8 = 2;
/// That of movable entries.
pub const MOVABLE: u8 = 255;

/// An entry table.
#[derive(Clone)]
pub struct Table {
    /// Its bytes, with the end byte.
    pub bytes: Vec<u8>,
    /// The ordinals that aren't null.
    pub ordinals: Vec<u16>,
}

impl Table {
    /// As many of these bundles as the table has room for.
    pub fn of(most_bytes: usize, bundles: impl IntoIterator<Item = Bundle>) -> Table {
        let mut table = Table {
            bytes: Vec::new(),
            ordinals: Vec::new(),
        };
        let mut ordinals = 0;
        for (segment_byte, count) in bundles {
            let next = ordinals + usize::from(count);
            let end = table.bytes.len() + size((segment_byte, count)) + 1;
            if end > most_bytes || next > 65_535 {
                break;
            }
            table.push((segment_byte, count), ordinals + 1);
            ordinals = next;
        }
        table.bytes.push(0);
        table
    }

    /// Null bundles of one entry each, as many as leave room for the last bundle.
    pub fn behind_nulls(most_bytes: usize, last: Bundle) -> Table {
        let nulls = (most_bytes - 1 - size(last)) / size((NULL, 1));
        let bundles = std::iter::repeat_n((NULL, 1), nulls);
        Table::of(most_bytes, bundles.chain([last]))
    }

    /// Bundles of random kinds and of random counts up to a greatest.
    pub fn random(most_bytes: usize, most_entries: u8) -> Table {
        let mut noise = Noise::new(most_entries.into());
        let bundles = std::iter::repeat_with(move || {
            let kind = [NULL, FIXED, MOVABLE][noise.below(3)];
            (kind, 1 + noise.below(most_entries.into()) as u8)
        });
        Table::of(most_bytes, bundles)
    }

    fn push(&mut self, (segment_byte, count): Bundle, first: usize) {
        self.bytes.extend([count, segment_byte]);
        for ordinal in first..first + usize::from(count) {
            let [low, high] = (ordinal as u16).to_le_bytes();
            match segment_byte {
                NULL => continue,
                MOVABLE => self.bytes.extend([3, 0xCD, 0x3F, FIXED, low, high]),
                _ => self.bytes.extend([3, low, high]),
            }
            self.ordinals.push(ordinal as u16);
        }
    }
}

/// The bytes of a bundle.
fn size((segment_byte, count): Bundle) -> usize {
    let width = match segment_byte {
        NULL => 0,
        MOVABLE => 6,
        _ => 3,
    };
    2 + width * usize::from(count)
}

/// Which of a table's ordinals are asked for, and in which order.
#[derive(Clone, Copy, Debug, PartialEq, Eq)]
pub enum Order {
    /// All of them, upwards.
    Ascending,
    /// All of them, downwards.
    Descending,
    /// All of them, at random.
    Random,
    /// The last one only.
    Last,
    /// At random those that leave this rest when divided by 8.
    Rest(u16),
}

impl Order {
    /// All orders.
    pub const ALL: [Order; 12] = [
        Order::Ascending,
        Order::Descending,
        Order::Random,
        Order::Last,
        Order::Rest(0),
        Order::Rest(1),
        Order::Rest(2),
        Order::Rest(3),
        Order::Rest(4),
        Order::Rest(5),
        Order::Rest(6),
        Order::Rest(7),
    ];

    /// The ordinals in this order; none where the table has no such ordinal.
    pub fn of(self, ordinals: &[u16]) -> Vec<u16> {
        let mut asked = ordinals.to_vec();
        match self {
            Order::Ascending => {}
            Order::Descending => asked.reverse(),
            Order::Random => Noise::new(8).shuffle(&mut asked),
            Order::Last => asked.drain(..asked.len().saturating_sub(1)).for_each(drop),
            Order::Rest(rest) => {
                asked.retain(|ordinal| ordinal % 8 == rest);
                Noise::new(9).shuffle(&mut asked);
            }
        }
        asked
    }
}

impl fmt::Display for Order {
    fn fmt(&self, f: &mut fmt::Formatter<'_>) -> fmt::Result {
        match self {
            Order::Ascending => write!(f, "upwards"),
            Order::Descending => write!(f, "downwards"),
            Order::Random => write!(f, "at random"),
            Order::Last => write!(f, "always the last"),
            Order::Rest(rest) => write!(f, "{rest} behind a multiple of 8"),
        }
    }
}
