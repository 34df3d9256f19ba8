//! Images at the edges of document 01's rules, each under a name of its own.

mod examples;
mod header;
mod large;
mod ordinals;
mod segments;
mod tables;
mod targets;

use crate::assemble::{assemble, Image};
use crate::description::{Description, Fixup, Segment, Stored, Target, HAS_RECORDS};
use crate::generate::Case;

/// An image that is made when it is asked for, since some are long.
pub struct Special {
    pub name: String,
    make: Box<dyn Fn() -> Case>,
}

impl Special {
    fn new(name: impl Into<String>, make: impl Fn() -> Case + 'static) -> Self {
        Special {
            name: name.into(),
            make: Box::new(make),
        }
    }

    /// One whose image is the description's, unchanged.
    fn of(name: impl Into<String>, describe: impl Fn() -> Description + 'static) -> Self {
        Special::new(name, move || case(describe()))
    }

    pub fn make(&self) -> Case {
        (self.make)()
    }
}

/// All of them.
pub fn specials() -> Vec<Special> {
    let mut all = Vec::new();
    all.extend(examples::examples());
    all.extend(header::headers());
    all.extend(segments::segments());
    all.extend(targets::targets());
    all.extend(tables::tables());
    all.extend(large::large());
    all.extend(ordinals::ordinals());
    all
}

/// The one of that name.
pub fn special(name: &str) -> Option<Special> {
    specials().into_iter().find(|special| special.name == name)
}

/// The description's image with fixed selectors and answers.
fn case(description: Description) -> Case {
    let image = build(&description);
    let longest = description.segments.iter().map(|s| s.fixups.len()).max();
    let answers = longest.unwrap_or(0) as u32;
    let selectors = description.segments.len() as u16;
    Case {
        selectors: (0..selectors)
            .map(|n| 0x2000u16.wrapping_add(n.wrapping_mul(8)))
            .collect(),
        answers: (0..answers)
            .map(|n| 0x4321_8765u32.wrapping_add(n.wrapping_mul(0x0003_0005)))
            .collect(),
        image,
        description,
    }
}

fn build(description: &Description) -> Image {
    match assemble(description) {
        Ok(image) => image,
        Err(unfit) => panic!("a special image can't be written: {unfit:?}"),
    }
}

/// The same case with other bytes; fields that left the image are dropped.
fn with_bytes(mut case: Case, change: impl FnOnce(&mut Vec<u8>)) -> Case {
    change(&mut case.image.bytes);
    let length = case.image.bytes.len();
    let layout = &mut case.image.layout;
    layout.fields.retain(|field| field.end() <= length);
    layout.tables.retain(|table| table.end <= length);
    case
}

/// Cuts bytes off the image's end.
fn shorter(case: Case, by: usize) -> Case {
    with_bytes(case, |bytes| bytes.truncate(bytes.len().saturating_sub(by)))
}

/// A segment of these bytes, with the allocation of its length and records.
fn segment(stored: Vec<u8>, fixups: Vec<Fixup>) -> Segment {
    Segment {
        // 65,536 is written as 0.
        allocation: stored.len() as u16,
        stored: Stored::Bytes(stored),
        flags: HAS_RECORDS,
        fixups,
    }
}

/// A module of one such segment.
fn one_segment(stored: Vec<u8>, fixups: Vec<Fixup>) -> Description {
    let mut description = Description::empty();
    description.shift = 4;
    description.segments.push(segment(stored, fixups));
    description.in_usual_order()
}

/// A fixup that points at this offset of segment 1.
fn internal(kind: u8, flags: u8, site: u16, offset: u16) -> Fixup {
    Fixup {
        kind,
        flags,
        site,
        target: Target::Segment {
            number: 1,
            reserved: 0,
            offset,
        },
    }
}
