//! The longest listings are what their comments say.

use crate::longest;
use reference::listing;

fn lines(listing: &[u8]) -> usize {
    listing.iter().filter(|byte| **byte == b'\n').count()
}

#[test]
fn most_lines() {
    let [image, _] = longest::images();
    let listing = listing(&image.bytes);
    assert_eq!(image.bytes.len(), 65_536);
    assert!(listing.starts_with(b"ordinals 21765\n1 1:"));
    // The first line and the last one come on top.
    assert_eq!(lines(&listing), 21_767);
}

#[test]
fn most_bytes() {
    let [_, image] = longest::images();
    let listing = listing(&image.bytes);
    assert_eq!(image.bytes.len(), 65_536);
    assert!(listing.starts_with(b"ordinals 31752\n70 1:"));
    assert_eq!(listing.len(), 391_296);
    assert_eq!(lines(&listing), 21_740);
}

/// All flags, and so all hexadecimal digits, occur.
#[test]
fn entries_differ() {
    for image in longest::images() {
        let listing = String::from_utf8(listing(&image.bytes)).expect("a text");
        for flag in 0..=255 {
            let end = format!(" {flag:02X}\n");
            assert!(listing.contains(&end), "{flag}");
        }
    }
}
