//! Room of every length: the front of the text and nothing behind it.

use super::examples::{OF_P10, P10};
use super::{module, Held, Judge, Listing};

pub fn edges(judge: &mut Judge) {
    for (name, image, text) in [
        ("P10", module(2, &P10), OF_P10),
        ("P11", module(2, &P10[..15]), "refused 12\n"),
        ("P11, byte count 0", module(2, &[]), "ordinals 0\nend\n"),
    ] {
        for length in (0..=text.len() + 5).chain([300, 65_536]) {
            let request = Listing::in_room(length);
            let name = format!("{name} in {length} bytes");
            judge.expects(&name, &image, &request, &request.says(text));
        }
        for address in [0, 1, 3, usize::MAX] {
            let room = Held::NothingAt(address);
            let request = Listing { room };
            let name = format!("{name} in no bytes at {address:X}h");
            judge.expects(&name, &image, &request, &request.says(text));
        }
    }
}
