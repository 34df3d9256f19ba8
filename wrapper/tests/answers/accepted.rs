//! Each field of each accepted answer. The numbers differ, so that a field in a
//! wrong place shows.

use crate::module::Module;
use parchgable::{Entry, Header, Image, Module as Imported, Name, Resource, Segment};

#[test]
fn header() {
    let image = Module::sample().image();
    let expected = Header {
        header_at: 64,
        unit: 16,
        segments_at: 128,
        segments: 2,
        entries_at: 144,
        entries_len: 16,
        resources_at: 160,
        resident_at: 184,
        modules_at: 199,
        modules: 2,
        imported_at: 203,
        nonresident_at: 215,
        nonresident_len: 18,
    };
    assert_eq!(Image::new(&image).header(), Ok(expected));
}

#[test]
fn segment() {
    let image = Module::sample().image();
    let expected = Segment {
        start: 272,
        stored: &[0xFE, 0xFF, 0, 0, 0xFF, 0xFF],
        flags: 0x0100,
        allocation: 6,
        records: 2,
    };
    assert_eq!(Image::new(&image).segment(2), Ok(expected));
}

#[test]
fn ordinal() {
    let image = Module::sample().image();
    let expected = Entry {
        segment: 2,
        offset: 0x0020,
        flag: 3,
    };
    assert_eq!(Image::new(&image).ordinal(4), Ok(expected));
}

#[test]
fn names() {
    let image = Module::sample().image();
    let image = Image::new(&image);
    let expected = Name {
        number: 4,
        text_at: 224,
        text: b"Omega!",
        ordinal: 0x1234,
    };
    assert_eq!(image.name(4), Ok(expected));
    assert_eq!(image.find_name(b"Omega!"), Ok(expected));
    assert_eq!(image.name(1).map(|name| name.text), Ok(&b"MOD"[..]));
    assert_eq!(image.find_name(b"Alpha").map(|name| name.ordinal), Ok(4));
}

#[test]
fn module() {
    let image = Module::sample().image();
    let expected = Imported {
        text_at: 209,
        text: b"KERNEL",
    };
    assert_eq!(Image::new(&image).module(2), Ok(expected));
}

#[test]
fn resources() {
    let bytes = Module::sample().image();
    let image = Image::new(&bytes);
    let expected = Resource {
        kind: 0x8006,
        id: 0x8007,
        flags: 0x0C30,
        data_at: 48,
        data: &bytes[48..80],
    };
    assert_eq!(image.resource(1), Ok(expected));
    assert_eq!(image.find_resource(0x8006, 0x8007), Ok(expected));
}

#[test]
fn listing() {
    let image = Module::sample().image();
    let expected = "ordinals 4\n1 1:0010 01\n4 2:0020 03\nend\n";
    assert_eq!(Image::new(&image).list(), expected.as_bytes());
}

#[test]
fn listing_in_lent_memory() {
    let image = Module::sample().image();
    let image = Image::new(&image);
    let mut short = *b"**********";
    assert_eq!(image.list_into(&mut short), 39);
    assert_eq!(&short, b"ordinals 4");
    let mut long = [b'*'; 41];
    assert_eq!(image.list_into(&mut long), 39);
    assert_eq!(&long[..39], image.list());
    assert_eq!(&long[39..], b"**");
}

/// The listing program stops at 65,536 bytes; this does not.
#[test]
fn listing_of_a_long_image() {
    let mut image = Module::sample().image();
    image.resize(65_537, 0);
    let expected = "ordinals 4\n1 1:0010 01\n4 2:0020 03\nend\n";
    assert_eq!(Image::new(&image).list(), expected.as_bytes());
    image.resize(16_777_216, 0);
    assert_eq!(Image::new(&image).list(), expected.as_bytes());
    image.push(0);
    assert_eq!(Image::new(&image).list(), b"refused 2\n");
}

/// An image is a pair of pointer and length, which many may use at once.
#[test]
fn an_image_is_copied_and_sent() {
    let bytes = Module::sample().image();
    let image = Image::new(&bytes);
    let ask = move || image.segment(1).map(|segment| segment.start);
    let other = std::thread::scope(|scope| scope.spawn(ask).join());
    assert_eq!(other.expect("a thread that ends"), ask());
    assert_eq!(image.bytes(), bytes);
}
