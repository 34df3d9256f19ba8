//! Generated sound images.

use super::Input;
use builder::{generate_from, Random};

pub fn input(random: &mut Random) -> Input {
    let image = generate_from(random).image;
    Input {
        origin: format!("sound, {} bytes", image.bytes.len()),
        bytes: image.bytes,
        segment: None,
    }
}
