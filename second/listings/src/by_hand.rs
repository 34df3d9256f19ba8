//! Images with listings written out by hand from document 01.

use crate::images::Image;
use builder::assemble;
use builder::description::{Description, Segment, Stored};

/// An image and its listing.
pub type Listed = (Image, &'static str);

/// P10's table.
const P10: [u8; 16] = [
    0x01, 0x01, 0x01, 0x10, 0x00, 0x02, 0x00, 0x01, 0xFF, 0x03, 0xCD, 0x3F, 0x02, 0x20, 0x00, 0x00,
];
const OF_P10: &str = "ordinals 4\n1 1:0010 01\n4 2:0020 03\nend\n";
const EMPTY: &str = "ordinals 0\nend\n";
const TOO_LONG: &str = "too long\n";

/// The NE header's place in these images, and two of its fields.
const NE: usize = 64;
const MODULE_COUNT: usize = NE + 0x1E;
const SHIFT: usize = NE + 0x32;

pub fn listed() -> Vec<Listed> {
    let mut all = accepted();
    all.extend(refused());
    all.extend(lengths());
    let named = |(image, text): Listed| {
        let origin = format!("by hand, {}", image.origin);
        (Image { origin, ..image }, text)
    };
    all.into_iter().map(named).collect()
}

fn accepted() -> Vec<Listed> {
    let digits = [
        1, 254, 0xAB, 0xEF, 0xCD, 9, 0, 1, 255, 0, 0xCD, 0x3F, 255, 0x0A, 0, 0,
    ];
    let of_digits = "ordinals 11\n1 254:CDEF AB\n11 255:000A 00\nend\n";
    let last = [&[255, 0].repeat(256)[..], &[254, 0, 1, 9, 9, 9, 0, 0]].concat();
    let of_last = "ordinals 65535\n65535 9:0009 09\nend\n";
    vec![
        table("P10", 2, &P10, OF_P10),
        table("P11, byte count 0", 2, &[], EMPTY),
        table("an end byte alone", 0, &[0], EMPTY),
        table("bytes behind the end byte", 2, &[0, 1, 200, 9], EMPTY),
        table("null ordinals alone", 0, &[3, 0, 0], "ordinals 3\nend\n"),
        table("digits", 255, &digits, of_digits),
        table("65,535 ordinals", 9, &last, of_last),
    ]
}

/// Refusal 2 is for images that are too long to be listed.
fn refused() -> Vec<Listed> {
    let p10 = || module(2, &P10);
    let with = |at: usize, byte: u8| {
        let mut image = p10();
        image[at] = byte;
        image
    };
    let ordinals = [255, 0].repeat(258);
    vec![
        (Image::new("0 bytes", vec![]), "refused 1\n"),
        (Image::new("1 byte", b"M".to_vec()), "refused 1\n"),
        (Image::new("63 bytes", p10()[..63].to_vec()), "refused 1\n"),
        (Image::new("64 bytes", p10()[..64].to_vec()), "refused 4\n"),
        (Image::new("64 zeros", vec![0; 64]), "refused 3\n"),
        (Image::new("not MZ", with(0, b'Z')), "refused 3\n"),
        (Image::new("place 63", with(0x3C, 63)), "refused 4\n"),
        (Image::new("not NE", with(NE + 1, b'F')), "refused 5\n"),
        (Image::new("shift 16", with(SHIFT, 16)), "refused 6\n"),
        (
            Image::new("modules", with(MODULE_COUNT, 255)),
            "refused 7\n",
        ),
        table("P11, byte count 15", 2, &P10[..15], "refused 12\n"),
        table("segment 2 of 1", 1, &P10, "refused 13\n"),
        table("65,790 ordinals", 2, &ordinals, "refused 14\n"),
    ]
}

/// About 65,536 and 16,777,216 bytes; too long comes before any refusal.
fn lengths() -> Vec<Listed> {
    let long = |table: &[u8], length: usize| {
        let mut image = module(2, table);
        image.resize(length, 0);
        Image::new(format!("{} table bytes in {length}", table.len()), image)
    };
    let zeros = |length: usize| Image::new(format!("{length} zeros"), vec![0; length]);
    vec![
        (long(&P10, 65_535), OF_P10),
        (long(&P10, 65_536), OF_P10),
        (long(&P10, 65_537), TOO_LONG),
        (long(&P10, 65_538), TOO_LONG),
        (long(&P10, 131_072), TOO_LONG),
        (long(&P10, 16_777_217), TOO_LONG),
        (long(&P10[..15], 65_536), "refused 12\n"),
        (long(&P10[..15], 65_537), TOO_LONG),
        (zeros(65_536), "refused 3\n"),
        (zeros(65_537), TOO_LONG),
        (zeros(16_777_217), TOO_LONG),
    ]
}

fn table(name: &str, segments: usize, table: &[u8], text: &'static str) -> Listed {
    (Image::new(name, module(segments, table)), text)
}

/// An image with so many segments and this entry table.
fn module(segments: usize, table: &[u8]) -> Vec<u8> {
    let segment = Segment {
        stored: Stored::None { length: 0 },
        flags: 0,
        allocation: 1,
        fixups: Vec::new(),
    };
    let mut description = Description::empty();
    description.segments = vec![segment; segments];
    description.entries.trailing = table.to_vec();
    let image = assemble(&description.in_usual_order());
    image.expect("an image that can be written").bytes
}

/// P10's image, for where any image will do.
pub fn any() -> Vec<u8> {
    module(2, &P10)
}
