//! The numbers that a query by number is asked for.

use builder::Random;

/// Numbers at the edges of 16 and 32 bits.
const EXTREMES: [u32; 8] = [
    65_534,
    65_535,
    65_536,
    65_537,
    0x7FFF_FFFF,
    0x8000_0000,
    0xFFFF_FFFE,
    0xFFFF_FFFF,
];

/// The numbers of an image that are worth asking for.
pub struct Worth {
    /// The last number that it states; 0 if there is none.
    pub last: u32,
    /// Two of its numbers.
    pub inside: [u32; 2],
}

impl Worth {
    /// Any two of the numbers from 1 to the last.
    pub fn up_to(last: u32, random: &mut Random) -> Self {
        let mut any = || 1 + random.below(last as usize) as u32;
        let inside = [any(), any()];
        Worth { last, inside }
    }
}

/// The edges of the table first, then numbers inside it, then wild ones.
pub fn number_to_ask(worth: &Worth, request: u64, random: &mut Random) -> u32 {
    let [first, second] = worth.inside;
    match request {
        0 => 0,
        1 => 1,
        2 => worth.last,
        3 => worth.last + 1,
        4 => first,
        5 => second,
        // The low word of this one is a number in the table.
        6 if random.one_in(3) => 65_536 + second,
        6 => random.pick(&EXTREMES),
        _ => random.edge_u32(),
    }
}
