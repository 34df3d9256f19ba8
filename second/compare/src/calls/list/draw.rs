//! The rooms that the listing is asked to be written to.

use super::Listing;
use crate::calls::Held;
use crate::inputs::Input;
use builder::Random;

pub fn worth_listing(input: &Input, request: u64, random: &mut Random) -> Listing {
    let whole = reference::list(&input.bytes, &mut []);
    let bytes = Held::filled(length(whole, request, random), random.below(255));
    Listing {
        room: Held::drawn(bytes, random),
    }
}

/// The listing's own length and those next to it, then more, and less.
fn length(whole: usize, request: u64, random: &mut Random) -> usize {
    match request {
        0 => whole,
        1 => whole - 1,
        2 => whole + 1,
        3 => 0,
        4 => whole + random.below(300),
        // Mostly in the first two lines.
        5 => random.below(40),
        _ => random.below(whole),
    }
}
