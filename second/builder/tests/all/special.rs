//! The special images are what their names say.

use crate::check;
use builder::{special::special, specials, Case};

fn made(name: &str) -> Case {
    special(name).expect("a special of that name").make()
}

fn prepared(name: &str) -> Result<usize, (u8, usize)> {
    check::prepare(&made(name).image.bytes, 1)
}

#[test]
fn all_are_made_under_names_of_their_own() {
    let mut names = std::collections::HashSet::new();
    for special in specials() {
        let case = special.make();
        let length = case.image.bytes.len();
        assert!(length <= 16_777_217, "{}", special.name);
        let inside = |field: &builder::Field| field.end() <= length;
        assert!(
            case.image.layout.fields.iter().all(inside),
            "{}",
            special.name
        );
        assert!(names.insert(special.name));
    }
    assert!(names.len() > 200);
}

#[test]
fn examples() {
    for (name, wanted) in [
        ("P1", Ok(2)),
        ("P2", Err((24, 1))),
        ("P3", Ok(1)),
        ("P4", Ok(1)),
        ("P5", Err((25, 2))),
        ("P5, at 4 instead", Ok(2)),
        ("P6", Err((25, 1))),
        ("P7", Ok(1)),
        ("P8, additive", Ok(1)),
        ("P8, chained", Err((24, 1))),
        ("P9", Ok(1)),
        ("P10", Ok(0)),
        ("P11, byte count 15", Err((12, 0))),
        ("P11, byte count 0", Ok(0)),
        ("P12", Ok(0)),
    ] {
        assert_eq!(prepared(name), wanted, "{name}");
    }
    let entries = check::entries(&made("P10").image.bytes).unwrap();
    assert_eq!(
        entries,
        [Some((1, 0x10, 1)), None, None, Some((2, 0x20, 3))]
    );
    assert_eq!(made("P9").selectors, [0x2000]);
}

#[test]
fn headers() {
    for (name, wanted) in [
        ("128 bytes, the smallest", 0),
        ("the smallest cut to 63 bytes", 1),
        ("the smallest cut to 64 bytes", 4),
        ("the smallest cut to 127 bytes", 4),
        ("16,777,216 bytes", 0),
        ("16,777,217 bytes", 2),
        ("signature ZM", 3),
        ("NE header's place 3Fh in 400 bytes", 4),
        ("NE header's place 41h in 400 bytes", 5),
        ("NE header's place FFFFFFC0h in 128 bytes", 4),
        ("NE header 1 bytes further", 0),
        ("alignment shift 15 without segments", 0),
        ("alignment shift 16 without segments", 6),
        ("EntryTable ends the image, less 0", 0),
        ("EntryTable ends the image, less 1", 7),
        ("SegmentTable ends the image, less 1", 7),
        ("ModuleReferences ends the image, less 1", 7),
        ("NonresidentNames ends the image, less 1", 7),
        ("empty tables at extreme places", 0),
        ("nonresident place FFFFFFFFh and size 1", 7),
        ("65,535 segments", 0),
    ] {
        let refusal = check::header(&made(name).image.bytes).err().unwrap_or(0);
        assert_eq!(refusal, wanted, "{name}");
    }
}

#[test]
fn entry_tables() {
    for (name, wanted) in [
        ("65,535 null ordinals", Ok(65_535)),
        ("65,536 null ordinals", Err(14)),
        ("65,535 ordinals, the last one used", Ok(65_535)),
        ("65,536 ordinals, the last one used", Err(14)),
        ("65,536 ordinals by a bundle without entries", Err(14)),
        ("65,536 ordinals by a bundle without segment", Err(12)),
        ("65,535 ordinals without end byte", Err(12)),
        ("an early missing segment, then no end byte", Err(13)),
        ("a missing segment in a bundle cut short", Err(12)),
        ("movable entry without interrupt", Err(13)),
        ("movable entry of segment 0", Err(13)),
        ("bytes after the end byte", Ok(0)),
        ("254 to 256 as segments of entries", Ok(3)),
    ] {
        let found = check::entries(&made(name).image.bytes);
        assert_eq!(found.map(|entries| entries.len()), wanted, "{name}");
    }
}

#[test]
fn segments_and_fixups() {
    for (name, wanted) in [
        ("a chain of 32,768 sites, mixed", Ok(32_768)),
        ("a chain of 16,384 far pointers", Ok(16_384)),
        ("65,535 records", Ok(65_535)),
        (
            "65,535 records, the last one in another's site",
            Err((25, 65_535)),
        ),
        ("65,535 OS fixups on 1 byte", Ok(0)),
        ("every kind of fixup", Ok(24)),
        ("type 0, flags 4, at FFFFh of 65,536 bytes", Ok(1)),
        ("type 0, flags 0, at FFFFh of 65,536 bytes", Err((24, 1))),
        ("a chain that meets itself", Err((25, 1))),
        ("type F5h, flags F8h", Ok(1)),
        ("type 1, flags 3, at the stored bytes' start", Err((22, 1))),
        ("a site in the zeros past the stored bytes", Err((24, 1))),
        ("two records end the image, less 0", Ok(2)),
        ("two records end the image, less 1", Err((9, 0))),
        ("two records end the image, less 17", Err((9, 0))),
        ("a record count of 0 ends the image, less 0", Ok(0)),
        ("sector FFFFh, shift 8, 256 bytes that end the image", Ok(0)),
        ("sector FFFFh, shift 15, past the image", Err((9, 0))),
        ("sector 0 with flags 0100h", Err((9, 0))),
        ("sector 0 with flags 0108h", Err((10, 0))),
        ("16 bytes, allocation 15, flags 0000h", Err((11, 0))),
        ("65,536 bytes, allocation word 65535", Err((11, 0))),
    ] {
        assert_eq!(prepared(name), wanted, "{name}");
    }
}

#[test]
fn names_and_resources() {
    let count =
        |name| check::names(&made(name).image.bytes).map(|[one, two]| (one.len(), two.len()));
    assert_eq!(count("65,537 resident names"), Ok((65_537, 0)));
    assert_eq!(count("65,537 resident names, less 1"), Err(16));
    assert_eq!(count("16,383 nonresident names"), Ok((0, 16_383)));
    assert_eq!(count("16,383 nonresident names, not ended"), Err(16));
    assert_eq!(
        count("65,530 resident and 10 nonresident names"),
        Ok((65_530, 10))
    );
    assert_eq!(
        count("nonresident size 9 for a list of 9 bytes"),
        Ok((3, 1))
    );
    assert_eq!(count("nonresident size 8 for a list of 9 bytes"), Err(16));
    assert_eq!(count("ResidentNames ends the image, less 1"), Err(16));
    let count = |name| check::resources(&made(name).image.bytes).map(|all| all.len());
    assert_eq!(count("65,540 resources"), Ok(65_540));
    assert_eq!(count("65,540 resources, less 1"), Err(18));
    assert_eq!(count("3,000 resources in 1,000 types"), Ok(3_000));
    assert_eq!(count("Resources ends the image, less 1"), Err(18));
    assert_eq!(count("resource shift 16"), Err(18));
    let module = |name| check::module(&made(name).image.bytes, 2).map(|text| text.len());
    assert_eq!(module("ImportedNames ends the image, less 0"), Ok(6));
    assert_eq!(module("ImportedNames ends the image, less 1"), Err(16));
    assert_eq!(module("65,535 modules"), Ok(6));
}

/// Every table is there and read well, past 16 bits.
#[test]
fn tables_further_on() {
    for gap in [65_472, 65_536, 100_001] {
        let case = made(&format!("every table, {gap} bytes further"));
        let bytes = &case.image.bytes;
        assert_eq!(case.image.layout.header_at, 64 + gap);
        let names = check::names(bytes).map(|[one, two]| (one.len(), two.len()));
        assert_eq!(names, Ok((3, 3)));
        assert_eq!(check::entries(bytes).map(|all| all.len()), Ok(4));
        assert_eq!(check::resources(bytes).map(|all| all.len()), Ok(2));
        assert_eq!(check::module(bytes, 2).map(|text| text.len()), Ok(6));
    }
}
