//! Each refusal that an image or a request can be given, on the sample with one
//! thing changed.

use crate::module::{put_word, Module, NE, SEGMENTS};
use parchgable::{Image, Refusal};

/// Expects this refusal of the request, on the sample after the change.
#[track_caller]
fn expect(number: u32, change: impl Fn(&mut Vec<u8>), ask: impl Fn(Image) -> Option<Refusal>) {
    let mut image = Module::sample().image();
    change(&mut image);
    let refused = ask(Image::new(&image)).map(Refusal::number);
    assert_eq!(refused, Some(number));
}

/// Puts a word of the NE header.
fn field(offset: usize, word: u16) -> impl Fn(&mut Vec<u8>) {
    move |image| put_word(image, NE + offset, word)
}

/// Puts a word of the second segment's row.
fn row(offset: usize, word: u16) -> impl Fn(&mut Vec<u8>) {
    move |image| put_word(image, SEGMENTS + 8 + offset, word)
}

fn nothing(_: &mut Vec<u8>) {}

#[test]
fn header() {
    expect(1, |image| image.truncate(63), |image| image.header().err());
    expect(1, |image| image.clear(), |image| image.header().err());
    expect(
        2,
        |image| image.resize(16_777_217, 0),
        |image| image.header().err(),
    );
    expect(3, |image| image.swap(0, 1), |image| image.header().err());
    expect(4, |image| image[0x3C] = 63, |image| image.header().err());
    expect(4, |image| image.truncate(127), |image| image.header().err());
    expect(
        5,
        |image| image[NE + 1] = b'F',
        |image| image.header().err(),
    );
    expect(6, field(0x32, 16), |image| image.header().err());
    expect(7, field(0x1E, 0xFFFF), |image| image.header().err());
}

#[test]
fn segment() {
    expect(3, |image| image.swap(0, 1), |image| image.segment(1).err());
    expect(8, nothing, |image| image.segment(0).err());
    expect(8, nothing, |image| image.segment(3).err());
    expect(8, nothing, |image| image.segment(u32::MAX).err());
    expect(9, row(0, 0xFFFF), |image| image.segment(2).err());
    expect(10, row(4, 0x0008), |image| image.segment(2).err());
    expect(11, row(6, 5), |image| image.segment(2).err());
}

#[test]
fn ordinal() {
    expect(12, field(0x06, 15), |image| image.ordinal(1).err());
    expect(13, |image| image[155] = 0, |image| image.ordinal(1).err());
    expect(14, too_many_ordinals, |image| image.ordinal(1).err());
    expect(15, nothing, |image| image.ordinal(0).err());
    expect(15, nothing, |image| image.ordinal(3).err());
    expect(15, nothing, |image| image.ordinal(5).err());
}

/// 258 null bundles of 255 ordinals each, at the end of the image.
fn too_many_ordinals(image: &mut Vec<u8>) {
    let place = image.len() - NE;
    put_word(image, NE + 0x04, place as u16);
    put_word(image, NE + 0x06, 517);
    image.extend([255, 0].repeat(258));
    image.push(0);
}

#[test]
fn names() {
    let cut = field(0x20, 17);
    expect(8, nothing, |image| image.name(0).err());
    expect(8, nothing, |image| image.name(5).err());
    expect(16, &cut, |image| image.name(1).err());
    expect(16, &cut, |image| image.find_name(b"Alpha").err());
    expect(17, nothing, |image| image.find_name(b"alpha").err());
    expect(17, nothing, |image| image.find_name(b"MOD").err());
    expect(17, nothing, |image| image.find_name(b"").err());
    expect(17, nothing, |image| image.find_name(&[b'A'; 256]).err());
}

#[test]
fn module() {
    expect(8, nothing, |image| image.module(0).err());
    expect(8, nothing, |image| image.module(3).err());
    expect(16, |image| image[199] = 0, |image| image.module(1).err());
}

#[test]
fn resources() {
    let shift = |image: &mut Vec<u8>| image[160] = 16;
    let outside = |image: &mut Vec<u8>| put_word(image, 170, 0xFFFF);
    expect(8, nothing, |image| image.resource(0).err());
    expect(8, nothing, |image| image.resource(2).err());
    expect(18, shift, |image| image.resource(1).err());
    expect(18, shift, |image| image.find_resource(0x8006, 0x8007).err());
    expect(19, nothing, |image| {
        image.find_resource(0x8007, 0x8006).err()
    });
    expect(19, nothing, |image| {
        image.find_resource(0x0006, 0x8007).err()
    });
    expect(19, nothing, |image| {
        image.find_resource(0x18006, 0x8007).err()
    });
    expect(20, outside, |image| image.resource(1).err());
    expect(20, outside, |image| {
        image.find_resource(0x8006, 0x8007).err()
    });
}

#[test]
fn listing() {
    let mut image = Module::sample().image();
    put_word(&mut image, NE + 0x06, 15);
    assert_eq!(Image::new(&image).list(), b"refused 12\n");
    assert_eq!(Image::new(&[]).list(), b"refused 1\n");
}
