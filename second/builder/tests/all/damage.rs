//! Damage changes what it says it does.

use crate::check;
use builder::damage::{Aim, Change};
use builder::{
    damage, every_field_damage, every_length, every_truncation, generate, specials, Damaged, Random,
};

fn kind(change: &Change) -> String {
    match change {
        Change::Field { aim, .. } => format!("{aim:?}"),
        other => format!("{other}").split(' ').next().unwrap().into(),
    }
}

#[test]
fn every_kind_occurs() {
    let mut random = Random::new(7);
    let mut seen = std::collections::BTreeSet::new();
    let mut several = 0;
    for seed in 0..2_000 {
        let image = generate(seed).image;
        for _ in 0..5 {
            let damaged = damage(&image, &mut random);
            several += usize::from(damaged.changes.len() > 1);
            seen.extend(damaged.changes.iter().map(kind));
        }
    }
    assert!(several > 500);
    let wanted = [
        "Allocation",
        "Cycle",
        "Extreme",
        "ImageEnd",
        "OffByOne",
        "OntoSpan",
        "OntoTable",
        "SegmentFlag",
        "SiteExtreme",
        "StoredEnd",
        "extended",
        "flipped",
        "scrambled",
        "swapped",
        "truncated",
    ];
    assert!(seen.iter().eq(wanted), "{seen:?}");
}

#[test]
fn a_seed_repeats() {
    let image = generate(3).image;
    let one = damage(&image, &mut Random::new(9));
    assert_eq!(one, damage(&image, &mut Random::new(9)));
}

#[test]
fn one_field_change_is_in_the_bytes() {
    let mut random = Random::new(1);
    for seed in 0..500 {
        let image = generate(seed).image;
        let damaged = damage(&image, &mut random);
        if let [Change::Field {
            field, from, to, ..
        }] = damaged.changes[..]
        {
            assert_eq!(field.read(&image.bytes), from);
            assert_eq!(field.read(&damaged.bytes), to);
            let differ = image.bytes.iter().zip(&damaged.bytes);
            let differ = differ.filter(|(one, other)| one != other).count();
            assert!((1..=usize::from(field.width)).contains(&differ));
        }
    }
}

#[test]
fn systematic_damage() {
    let image = generate(3).image;
    let mut fields = std::collections::HashSet::new();
    for damaged in every_field_damage(&image) {
        let Damaged { bytes, changes } = damaged;
        assert_ne!(bytes, image.bytes);
        assert_eq!(bytes.len(), image.bytes.len());
        let [Change::Field { aim, field, .. }] = changes[..] else {
            panic!("{changes:?}");
        };
        assert_eq!(aim, Aim::Systematic);
        fields.insert(field.at);
    }
    assert!(image
        .layout
        .fields
        .iter()
        .all(|field| fields.contains(&field.at)));
}

#[test]
fn truncations() {
    let image = generate(3).image;
    let lengths: Vec<usize> = every_truncation(&image).map(|d| d.bytes.len()).collect();
    assert!(lengths.windows(2).all(|two| two[0] < two[1]));
    for table in &image.layout.tables {
        for length in [table.end - 1, table.end, table.end + 1] {
            assert!(length >= image.bytes.len() || lengths.contains(&length));
        }
    }
    let all = every_length(&image).map(|damaged| damaged.bytes.len());
    assert!(all.eq(0..image.bytes.len()));
}

/// Cut images have a layout that reaches past them.
#[test]
fn special_images_can_be_damaged() {
    let mut random = Random::new(4);
    for special in specials() {
        let image = special.make().image;
        if image.bytes.len() > 100_000 {
            continue;
        }
        for _ in 0..5 {
            damage(&image, &mut random);
        }
        assert!(every_field_damage(&image).take(50).count() <= 50);
        assert!(every_truncation(&image).take(50).count() <= 50);
    }
}

/// All refusals but 2, which takes a long image, 8, 15, 17 and 19, which are the
/// question's, 21, which is the lists', and 26, which disjoint spans rule out.
#[test]
fn refusals_follow_from_damage() {
    let mut random = Random::new(5);
    let mut seen = std::collections::BTreeMap::new();
    for seed in 0..20_000 {
        let bytes = damage(&generate(seed).image, &mut random).bytes;
        for refusal in refusals(&bytes) {
            *seen.entry(refusal).or_insert(0) += 1;
        }
    }
    let wanted = [
        1, 3, 4, 5, 6, 7, 9, 10, 11, 12, 13, 16, 18, 20, 22, 23, 24, 25,
    ];
    for refusal in wanted {
        assert!(seen.get(&refusal) > Some(&20), "{refusal}: {seen:?}");
    }
}

fn refusals(bytes: &[u8]) -> Vec<u8> {
    let header = match check::header(bytes) {
        Ok(header) => header,
        Err(refusal) => return vec![refusal],
    };
    let mut found = Vec::new();
    found.extend(check::entries(bytes).err());
    found.extend(check::names(bytes).err());
    found.extend((1..=header.modules).filter_map(|n| check::module(bytes, n).err()));
    match check::resources(bytes) {
        Ok(all) if all.iter().any(|one| one.data.end > bytes.len()) => found.push(20),
        Ok(_) => {}
        Err(refusal) => found.push(refusal),
    }
    let prepared = (1..=header.segments).map(|number| check::prepare(bytes, number));
    found.extend(prepared.filter_map(|one| one.err().map(|(refusal, _)| refusal)));
    found
}
