//! Built images, byte by byte.

use crate::check;
use builder::description::{
    Bundle, Description, Fixup, Part, Put, Resource, ResourceBlock, Resources, Segment, Stored,
    Target, ADDITIVE, HAS_RECORDS,
};
use builder::{assemble, special::special, Case, FieldKind, Image, TableKind, Unfit};

fn made(name: &str) -> Case {
    special(name).expect("a special of that name").make()
}

fn table(image: &Image, what: TableKind) -> &[u8] {
    let table = image.layout.table_of(what).expect("a table");
    &image.bytes[table.start..table.end]
}

fn build(description: &Description) -> Image {
    assemble(description).expect("a description that fits")
}

#[test]
fn p10_entry_table() {
    let case = made("P10");
    let wanted = [
        0x01, 0x01, 0x01, 0x10, 0x00, 0x02, 0x00, 0x01, 0xFF, 0x03, 0xCD, 0x3F, 0x02, 0x20, 0x00,
        0x00,
    ];
    let image = &case.image;
    assert_eq!(table(image, TableKind::Entries), wanted);
    let at = image.layout.header_at;
    assert_eq!(check::word(&image.bytes, at + 0x06), Some(16));
    assert_eq!(check::word(&image.bytes, at + 0x1C), Some(2));
    let place = check::word(&image.bytes, at + 0x04).unwrap();
    assert_eq!(image.bytes[at + place..][..16], wanted);
    let short = made("P11, byte count 15");
    assert_eq!(check::word(&short.image.bytes, at + 0x06), Some(15));
}

#[test]
fn p1_segment() {
    let case = made("P1");
    let bytes = &case.image.bytes;
    let stored = [0x00, 0x00, 0x06, 0x00, 0xAA, 0xBB, 0xFF, 0xFF];
    let records = [1, 0, 0x05, 0x00, 0x02, 0x00, 0x01, 0x00, 0x34, 0x12];
    let layout = &case.image.layout;
    let segment = &layout.segments[0];
    assert_eq!(bytes[segment.stored.clone()], stored);
    assert_eq!(bytes[segment.records.clone()], records);
    assert_eq!(segment.records.start, segment.stored.end);
    let sector = segment.sector as u8;
    assert_eq!(segment.stored.start, usize::from(sector) << 4);
    let record = [sector, 0, 8, 0, 0, 1, 8, 0];
    assert_eq!(table(&case.image, TableKind::Segments), record);
    let sites: Vec<u16> = layout.sites.iter().map(|site| site.offset).collect();
    assert_eq!(sites, [2, 6]);
}

#[test]
fn headers() {
    let case = made("128 bytes, the smallest");
    let mut wanted = vec![0; 128];
    wanted[..2].copy_from_slice(b"MZ");
    wanted[0x3C] = 64;
    wanted[64..66].copy_from_slice(b"NE");
    wanted[64 + 0x24] = 0x3F;
    wanted[64 + 0x26] = 0x3F;
    assert_eq!(case.image.bytes, wanted);
}

/// Every header field has its place from document 01.
#[test]
fn header_fields() {
    let case = made("EntryTable ends the image, less 0");
    let layout = &case.image.layout;
    for (offset, what) in [
        (0x00, FieldKind::NeSignature),
        (0x04, FieldKind::EntryTablePlace),
        (0x06, FieldKind::EntryTableSize),
        (0x1C, FieldKind::SegmentCount),
        (0x1E, FieldKind::ModuleCount),
        (0x20, FieldKind::NonresidentSize),
        (0x22, FieldKind::SegmentTablePlace),
        (0x24, FieldKind::ResourceTablePlace),
        (0x26, FieldKind::ResidentPlace),
        (0x28, FieldKind::ModulesPlace),
        (0x2A, FieldKind::ImportedPlace),
        (0x2C, FieldKind::NonresidentPlace),
        (0x30, FieldKind::MovableCount),
        (0x32, FieldKind::AlignmentShift),
        (0x34, FieldKind::ResourceEntryCount),
    ] {
        let field = layout.field_of(what).expect("a header field");
        assert_eq!(field.at, layout.header_at + offset, "{what:?}");
    }
    let from_file = layout.table_of(TableKind::Nonresident).unwrap().start;
    let place = layout.field_of(FieldKind::NonresidentPlace).unwrap();
    assert_eq!(place.read(&case.image.bytes) as usize, from_file);
}

#[test]
fn names_and_imports() {
    let case = made("NonresidentNames ends the image, less 0");
    let image = &case.image;
    let resident = b"\x06MODULE\0\0\x05First\x01\0\x06Second\x02\0\0";
    assert_eq!(table(image, TableKind::Resident), resident);
    let nonresident = b"\x0DA description\0\0\x05First\x01\0\x05Third\x02\0\0";
    assert_eq!(table(image, TableKind::Nonresident), nonresident);
    assert!(image.bytes.ends_with(nonresident));
    assert_eq!(table(image, TableKind::Imported), b"\0\x06KERNEL");
    assert_eq!(table(image, TableKind::Modules), [1, 0, 1, 0]);
    let size = image.layout.field_of(FieldKind::NonresidentSize).unwrap();
    assert_eq!(size.read(&image.bytes) as usize, nonresident.len());
}

#[test]
fn resource_table() {
    let mut description = Description::empty();
    description.resources = Some(Resources {
        shift: 4,
        blocks: vec![ResourceBlock {
            kind: 0x8003,
            reserved: 0x0403_0201,
            resources: vec![Resource {
                offset: 0x0102,
                length: 0x0304,
                flags: 0x0506,
                id: 0x8708,
                reserved: 0x0D0C_0B0A,
            }],
        }],
        end: true,
    });
    let image = build(&description.in_usual_order());
    let wanted = [
        4, 0, 0x03, 0x80, 1, 0, 1, 2, 3, 4, 2, 1, 4, 3, 6, 5, 8, 0x87, 0x0A, 0x0B, 0x0C, 0x0D, 0, 0,
    ];
    assert_eq!(table(&image, TableKind::Resources), wanted);
}

#[test]
fn records_of_each_target() {
    let fixup = |flags, target| Fixup {
        kind: 3,
        flags,
        site: 0x0201,
        target,
    };
    let (reserved, ordinal) = (9, 0x0605);
    let (module, string) = (0x0403, 0x0605);
    let fixups = vec![
        fixup(4, Target::Ordinal { reserved, ordinal }),
        fixup(5, Target::ImportOrdinal { module, ordinal }),
        fixup(6, Target::ImportName { module, string }),
    ];
    let mut description = Description::empty();
    description.segments.push(Segment {
        stored: Stored::Bytes(vec![0; 4]),
        flags: HAS_RECORDS,
        allocation: 4,
        fixups,
    });
    let image = build(&description.in_usual_order());
    let wanted = [
        3, 0, 3, 4, 1, 2, 255, 9, 5, 6, 3, 5, 1, 2, 3, 4, 5, 6, 3, 6, 1, 2, 3, 4, 5, 6,
    ];
    assert_eq!(table(&image, TableKind::Records(0)), wanted);
}

#[test]
fn long_segment_and_window() {
    let case = made("a chain of 32,768 sites, upwards");
    let segment = check::segment(&case.image.bytes, 1).ok().unwrap();
    assert_eq!((segment.stored.len(), segment.allocation), (65_536, 65_536));
    let length = case.image.layout.field_of(FieldKind::SegmentLength(0));
    assert_eq!(length.unwrap().read(&case.image.bytes), 0);
    assert_eq!(case.image.layout.sites.len(), 32_768);

    let mut description = Description::empty();
    description.shift = 3;
    description.segments.push(Segment {
        stored: Stored::Window { sector: 2 },
        flags: 0,
        allocation: 0,
        fixups: Vec::new(),
    });
    let image = build(&description.in_usual_order());
    assert_eq!(image.layout.segments[0].stored, 16..image.bytes.len());
}

#[test]
fn gaps_places_and_tail() {
    let mut description = Description::empty();
    description.filler = 0xEE;
    description.tail = 3;
    description.entries.bundles = vec![Bundle::Null { count: 7 }];
    description.order = vec![
        (Part::Header, Put::After { gap: 5 }),
        (Part::ResidentNames, Put::At { place: 140 }),
        (Part::EntryTable, Put::After { gap: 2 }),
    ];
    let image = build(&description);
    assert_eq!(image.layout.header_at, 69);
    assert_eq!(image.bytes[64..69], [0xEE; 5]);
    let wanted = [0xEE, 0, 0xEE, 0xEE, 7, 0, 0xEE, 0xEE, 0xEE];
    assert_eq!(image.bytes[139..], wanted);
}

#[test]
fn what_does_not_fit() {
    let mut description = Description::empty();
    assert_eq!(assemble(&description).err(), Some(Unfit::NoHeader));
    description.order = vec![
        (Part::ResidentNames, Put::After { gap: 0 }),
        (Part::Header, Put::After { gap: 0 }),
    ];
    let before = Unfit::Place(Part::ResidentNames);
    assert_eq!(assemble(&description).err(), Some(before));
    let far = Put::After { gap: 70_000 };
    description.order.swap(0, 1);
    description.order[1].1 = far;
    assert_eq!(assemble(&description).err(), Some(before));
    description.order[1].1 = Put::Over {
        part: Part::EntryTable,
        offset: 0,
    };
    let missing = Unfit::NotPlaced(Part::EntryTable);
    assert_eq!(assemble(&description).err(), Some(missing));
    description.order[1].1 = Put::After { gap: 20_000_000 };
    assert_eq!(assemble(&description).err(), Some(Unfit::TooLong));
}

#[test]
fn spans() {
    let width = |kind, flags| {
        let target = Target::Raw { first: 0, last: 0 };
        let site = 0;
        Fixup {
            kind,
            flags,
            site,
            target,
        }
        .span()
    };
    assert_eq!(width(0xF0, 0xF8), Some(2));
    assert_eq!(width(0, ADDITIVE), Some(1));
    assert_eq!(
        (width(2, 0), width(5, 6), width(3, 5)),
        (Some(2), Some(2), Some(4))
    );
    assert_eq!((width(3, 3), width(3, 7), width(1, 0)), (None, None, None));
}
