//! Random cases: they fit, they repeat, and the checker accepts them.

use crate::check;
use builder::description::{Stored, ITERATED};
use builder::{assemble, generate, Case};

const SEEDS: u64 = 5_000;

#[test]
fn fields_and_tables_lie_inside() {
    for seed in 0..SEEDS {
        let image = generate(seed).image;
        let length = image.bytes.len();
        let fields = &image.layout.fields;
        assert!(fields.iter().all(|field| field.end() <= length), "{seed}");
        assert!(fields.iter().all(|field| matches!(field.width, 1 | 2 | 4)));
        for table in &image.layout.tables {
            assert!(table.start <= table.end && table.end <= length, "{seed}");
        }
        for segment in &image.layout.segments {
            assert!(segment.records.end <= length, "{seed}");
        }
    }
}

#[test]
fn seeds_repeat() {
    let mut distinct = std::collections::HashSet::new();
    for seed in 0..500 {
        let (one, other) = (generate(seed), generate(seed));
        assert_eq!(one.image, other.image);
        assert_eq!(one.selectors, other.selectors);
        assert_eq!(one.answers, other.answers);
        let again = assemble(&one.description).expect("it fitted before");
        assert_eq!(one.image, again);
        distinct.insert(one.image.bytes);
    }
    assert_eq!(distinct.len(), 500);
}

#[test]
fn most_images_are_small() {
    let mut lengths: Vec<usize> = (0..SEEDS)
        .map(|seed| generate(seed).image.bytes.len())
        .collect();
    lengths.sort_unstable();
    assert!(lengths[lengths.len() / 2] < 1_500);
    assert!(lengths[lengths.len() * 9 / 10] < 5_000);
    assert!(lengths.iter().all(|length| *length < 1_000_000));
}

#[test]
fn the_checker_accepts() {
    for seed in 0..SEEDS {
        let case = generate(seed);
        tables_agree(&case, seed);
        segments_agree(&case, seed);
    }
}

fn tables_agree(case: &Case, seed: u64) {
    let (bytes, description) = (&case.image.bytes, &case.description);
    let header = check::header(bytes).ok().unwrap();
    assert_eq!(header.segments, description.segments.len(), "{seed}");
    assert_eq!(header.modules, description.modules.len(), "{seed}");
    assert_eq!(header.shift, u32::from(description.shift), "{seed}");
    let entries = check::entries(bytes).unwrap();
    assert_eq!(entries.len(), description.entries.ordinals(), "{seed}");
    let lists = check::names(bytes).unwrap();
    for (found, wanted) in lists
        .iter()
        .zip([&description.resident, &description.nonresident])
    {
        assert_eq!(found.len(), wanted.names.len(), "{seed}");
        for ((text, ordinal), name) in found.iter().zip(&wanted.names) {
            assert_eq!(bytes[text.clone()], name.text, "{seed}");
            assert_eq!(*ordinal, usize::from(name.ordinal), "{seed}");
        }
    }
    let found = check::resources(bytes).ok().unwrap();
    let blocks = description.resources.iter().flat_map(|table| &table.blocks);
    let wanted = blocks.flat_map(|b| b.resources.iter().map(move |r| (b.kind, r.id)));
    let wanted: Vec<(usize, usize)> = wanted.map(|(k, i)| (k.into(), i.into())).collect();
    let found: Vec<(usize, usize)> = found.iter().map(|one| (one.kind, one.id)).collect();
    assert_eq!(found, wanted, "{seed}");
}

fn segments_agree(case: &Case, seed: u64) {
    let (bytes, description) = (&case.image.bytes, &case.description);
    assert!(case.selectors.len() >= description.segments.len());
    for (index, segment) in description.segments.iter().enumerate() {
        assert!(case.answers.len() >= segment.fixups.len());
        let prepared = check::prepare(bytes, index + 1);
        if segment.flags & ITERATED != 0 {
            assert_eq!(prepared, Err((10, 0)), "{seed}");
            continue;
        }
        let found = check::segment(bytes, index + 1).ok().unwrap();
        let layout = &case.image.layout;
        let sites = layout.sites.iter();
        let sites = sites.filter(|site| usize::from(site.segment) == index);
        assert_eq!(prepared, Ok(sites.count()), "{seed}, segment {}", index + 1);
        assert_eq!(found.flags, usize::from(segment.flags), "{seed}");
        match &segment.stored {
            Stored::None { .. } => assert!(found.stored.is_empty(), "{seed}"),
            Stored::Bytes(stored) => {
                assert_eq!(bytes[found.stored.clone()], *stored, "{seed}");
            }
            Stored::Window { .. } => assert!(found.stored.len() >= 64, "{seed}"),
        }
        if !found.stored.is_empty() {
            assert_eq!(layout.segments[index].stored, found.stored, "{seed}");
        }
    }
}
