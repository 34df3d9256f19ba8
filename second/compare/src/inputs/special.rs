//! Images at the edges of the rules, some of 16 MB.

use super::Input;
use builder::specials;

pub fn inputs() -> impl Iterator<Item = Input> {
    specials().into_iter().map(|special| {
        let image = special.make().image;
        Input {
            origin: format!("{:?}, {} bytes", special.name, image.bytes.len()),
            bytes: image.bytes,
            segment: None,
        }
    })
}
