//! Shrinking and dumping.

use builder::{generate, hexdump, shrink};

#[test]
fn keeps_what_the_predicate_needs() {
    let mut bytes = vec![0xAB; 1_000];
    bytes[123] = 0x77;
    let mut calls = 0;
    let shrunk = shrink(&bytes, 4_000, |part| {
        calls += 1;
        part.get(123) == Some(&0x77)
    });
    assert!(calls <= 4_000);
    assert_eq!(shrunk.len(), 124);
    assert_eq!(shrunk[123], 0x77);
    assert!(shrunk[..123].iter().all(|byte| *byte == 0));
}

#[test]
fn works_on_images_within_its_calls() {
    let image = generate(11).image;
    let mut calls = 0;
    let shrunk = shrink(&image.bytes, 50, |part| {
        calls += 1;
        part.starts_with(b"MZ") && part.len() > 40
    });
    assert!(calls <= 50);
    assert_eq!(shrunk.len(), 41);
    let none = shrink(&image.bytes, 50, |_| false);
    assert_eq!(none, image.bytes);
    let all = shrink(&image.bytes, 50, |_| true);
    assert!(all.is_empty());
}

#[test]
fn dump_leaves_out_zeros() {
    let mut bytes = vec![0; 70];
    bytes[1] = 0xAB;
    bytes[69] = 1;
    let wanted = "\
00000000  00 AB 00 00 00 00 00 00 00 00 00 00 00 00 00 00
00000010  zeros up to 00000040
00000040  00 00 00 00 00 01
00000046  length 70
";
    assert_eq!(hexdump(&bytes), wanted);
    assert_eq!(hexdump(&[]), "00000000  length 0\n");
}
