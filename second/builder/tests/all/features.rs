//! Everything that descriptions can say does occur in the random ones.

use crate::check;
use builder::description::{
    Bundle, Description, Part, Put, Segment, Stored, Target, ADDITIVE, HAS_RECORDS, ITERATED,
};
use builder::{generate, Case};
use std::collections::BTreeMap;

#[derive(Default)]
struct Count(BTreeMap<String, usize>);

impl Count {
    fn add(&mut self, name: impl Into<String>, holds: bool) {
        *self.0.entry(name.into()).or_insert(0) += usize::from(holds);
    }
}

#[test]
fn every_feature_occurs() {
    let mut count = Count::default();
    for seed in 0..5_000 {
        let case = generate(seed);
        let description = &case.description;
        shape(&mut count, &case);
        entries(&mut count, description);
        names(&mut count, description);
        imports(&mut count, &case);
        resources(&mut count, &case);
        for segment in &description.segments {
            one_segment(&mut count, segment);
            fixups(&mut count, segment);
        }
        sites(&mut count, &case);
    }
    let missing: Vec<&String> = count
        .0
        .iter()
        .filter(|one| *one.1 == 0)
        .map(|one| one.0)
        .collect();
    assert!(missing.is_empty(), "{missing:?}");
}

fn shape(count: &mut Count, case: &Case) {
    let description = &case.description;
    for shift in 0..16 {
        count.add(format!("shift {shift}"), description.shift == shift);
    }
    count.add("no segment", description.segments.is_empty());
    count.add("over 255 segments", description.segments.len() > 255);
    count.add("NE header at 64", case.image.layout.header_at == 64);
    count.add(
        "NE header at an odd place",
        case.image.layout.header_at % 2 == 1,
    );
    count.add("tail", description.tail > 0);
    count.add("no tail", description.tail == 0);
    count.add(
        "selectors to spare",
        case.selectors.len() > description.segments.len(),
    );
    let early = matches!(description.order[0].0, Part::Segment(_));
    count.add("segment before the NE header", early);
    let over = |part| {
        let is = |one: &(Part, Put)| one.0 == part && matches!(one.1, Put::Over { .. });
        description.order.iter().any(is)
    };
    for part in [
        Part::ResidentNames,
        Part::NonresidentNames,
        Part::ImportedNames,
        Part::Resources,
    ] {
        count.add(format!("{part:?} over another part"), over(part));
    }
    let last = description.segments.len().wrapping_sub(1);
    count.add("shared segment", over(Part::Segment(last)));
    let raw = |one: &(Part, Put)| matches!(one.1, Put::Raw { .. });
    count.add("place of an empty table", description.order.iter().any(raw));
    let gap = |one: &(Part, Put)| matches!(one.1, Put::After { gap } if gap > 0);
    count.add("gap", description.order.iter().any(gap));
}

fn entries(count: &mut Count, description: &Description) {
    let table = &description.entries;
    count.add("entry table of size 0", !table.end);
    count.add("only an end byte", table.end && table.bundles.is_empty());
    count.add("bytes after the end byte", !table.trailing.is_empty());
    count.add("65,535 ordinals", table.ordinals() == 65_535);
    for bundle in &table.bundles {
        count.add("null bundle", matches!(bundle, Bundle::Null { .. }));
        count.add("fixed bundle", matches!(bundle, Bundle::Fixed { .. }));
        let at_254 = matches!(bundle, Bundle::Fixed { segment: 254, .. });
        count.add("fixed bundle of segment 254", at_254);
        if let Bundle::Movable { entries } = bundle {
            count.add("movable bundle", true);
            let at_255 = entries.iter().any(|entry| entry.segment == 255);
            count.add("movable entry of segment 255", at_255);
        }
        count.add("bundle of 255", bundle.count() == 255);
    }
}

fn names(count: &mut Count, description: &Description) {
    let (resident, nonresident) = (&description.resident, &description.nonresident);
    count.add("empty resident list", resident.names.is_empty());
    count.add("resident names", resident.names.len() > 1);
    count.add("nonresident size 0", !nonresident.end);
    count.add(
        "empty nonresident list",
        nonresident.end && nonresident.names.is_empty(),
    );
    count.add("nonresident names", nonresident.names.len() > 1);
    count.add(
        "bytes after the nonresident list",
        !nonresident.trailing.is_empty(),
    );
    let all = || resident.names.iter().chain(&nonresident.names);
    count.add("thousand names", all().count() > 1_000);
    count.add(
        "name of 255 bytes",
        all().any(|name| name.text.len() == 255),
    );
    let in_both = |name| {
        resident
            .names
            .iter()
            .skip(1)
            .any(|other| other.text == name)
    };
    let later = nonresident.names.iter().skip(1);
    count.add(
        "name in both lists",
        later.map(|name| name.text.clone()).any(in_both),
    );
}

fn imports(count: &mut Count, case: &Case) {
    let modules = &case.description.modules;
    count.add("no module", modules.is_empty());
    count.add("thousand modules", modules.len() > 1_000);
    for number in 1..=modules.len() {
        let found = check::module(&case.image.bytes, number);
        count.add("sound module", found.is_ok());
        count.add("unsound module", found == Err(16));
    }
}

fn resources(count: &mut Count, case: &Case) {
    count.add("no resource table", case.description.resources.is_none());
    let Some(table) = &case.description.resources else {
        return;
    };
    count.add("resource table without types", table.blocks.is_empty());
    for shift in 0..16 {
        count.add(format!("resource shift {shift}"), table.shift == shift);
    }
    for block in &table.blocks {
        count.add("type without resources", block.resources.is_empty());
    }
    let found = check::resources(&case.image.bytes).ok().unwrap();
    let length = case.image.bytes.len();
    count.add("thousand resources", found.len() > 1_000);
    for one in &found {
        count.add("type without high bit", one.kind & 0x8000 == 0);
        count.add("id without high bit", one.id & 0x8000 == 0);
        count.add("data inside", one.data.end < length);
        count.add(
            "data up to the end",
            one.data.end == length && !one.data.is_empty(),
        );
        count.add("no data at the end", one.data == (length..length));
        count.add("data past the end", one.data.end > length);
        let same = |other: &&check::Found| (other.kind, other.id) == (one.kind, one.id);
        count.add("type and id twice", found.iter().filter(same).count() > 1);
    }
}

fn one_segment(count: &mut Count, segment: &Segment) {
    let has_records = segment.flags & HAS_RECORDS != 0;
    count.add("iterated", segment.flags & ITERATED != 0);
    count.add("records", has_records);
    count.add(
        "records, none of them",
        has_records && segment.fixups.is_empty(),
    );
    count.add("window", matches!(segment.stored, Stored::Window { .. }));
    match &segment.stored {
        Stored::Bytes(bytes) => {
            let allocation = usize::from(segment.allocation);
            count.add("stored bytes without records", !has_records);
            count.add("65,536 stored bytes", bytes.len() == 65_536);
            count.add("allocation of the stored length", allocation == bytes.len());
            count.add(
                "allocation over the stored length",
                allocation > bytes.len(),
            );
            count.add("allocation 0", allocation == 0 && bytes.len() < 65_536);
        }
        Stored::None { .. } => {
            count.add("sector 0", true);
            count.add("sector 0, allocation 0", segment.allocation == 0);
        }
        Stored::Window { .. } => {}
    }
}

fn fixups(count: &mut Count, segment: &Segment) {
    for fixup in &segment.fixups {
        for kind in [0, 2, 3, 5] {
            for flags in 0..8 {
                let is = fixup.kind & 15 == kind && fixup.flags & 7 == flags;
                count.add(format!("type {kind}, flags {flags}"), is);
            }
        }
        count.add("high bits of the type", fixup.kind > 15);
        count.add("high bits of the flags", fixup.flags > 7);
        count.add("plain type", fixup.kind < 16);
        count.add("plain flags", fixup.flags < 8);
        let target = fixup.target;
        count.add("to a segment", matches!(target, Target::Segment { .. }));
        count.add("to an ordinal", matches!(target, Target::Ordinal { .. }));
        let import = matches!(target, Target::ImportOrdinal { .. });
        count.add("import by ordinal", import);
        count.add(
            "import by name",
            matches!(target, Target::ImportName { .. }),
        );
        count.add("of the OS", matches!(target, Target::Os { .. }));
        count.add("additive", fixup.flags & ADDITIVE != 0);
    }
}

fn sites(count: &mut Count, case: &Case) {
    let layout = &case.image.layout;
    let mut chain = 0;
    for (index, site) in layout.sites.iter().enumerate() {
        let before = index.checked_sub(1).map(|before| layout.sites[before]);
        let follows = before.filter(|b| (b.segment, b.record) == (site.segment, site.record));
        chain = if follows.is_some() { chain + 1 } else { 1 };
        count.add("chain of several sites", chain > 2);
        count.add("chain of thousands of sites", chain > 5_000);
        count.add(
            "chain upwards",
            follows.is_some_and(|b| b.offset < site.offset),
        );
        count.add(
            "chain downwards",
            follows.is_some_and(|b| b.offset > site.offset),
        );
        let stored = &layout.segments[usize::from(site.segment)].stored;
        let end = usize::from(site.offset) + usize::from(site.width);
        count.add("first site", site.offset == 0);
        count.add("last site", end == stored.len());
    }
}
