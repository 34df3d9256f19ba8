//! Random damage to a built image, aimed by its layout.

mod aimed;
mod blunt;
mod sites;

use crate::assemble::Image;
use crate::layout::{Field, Table};
use crate::random::Random;
use std::fmt;

/// A copy of an image with something changed.
#[derive(Clone, Debug, PartialEq, Eq)]
pub struct Damaged {
    pub bytes: Vec<u8>,
    /// What was done, in order.
    pub changes: Vec<Change>,
}

#[derive(Clone, Copy, Debug, PartialEq, Eq)]
pub enum Change {
    /// A field was given another number.
    Field {
        aim: Aim,
        field: Field,
        from: u32,
        to: u32,
    },
    /// Two fields of one width changed places.
    Swapped {
        first: Field,
        second: Field,
    },
    Flipped {
        at: usize,
        bit: u8,
    },
    /// Random bytes over a part of a table.
    Scrambled {
        table: Table,
        at: usize,
        bytes: usize,
    },
    Truncated {
        to: usize,
    },
    Extended {
        by: usize,
    },
}

/// What a field's new number is meant to do.
#[derive(Clone, Copy, Debug, PartialEq, Eq)]
pub enum Aim {
    OffByOne,
    Extreme,
    /// A table or segment onto another table.
    OntoTable,
    /// A table or segment whose end is about the image's end.
    ImageEnd,
    /// A site onto or next to another span.
    OntoSpan,
    /// A chain back to one of its own sites.
    Cycle,
    /// A site of FFFFh or FFFEh.
    SiteExtreme,
    /// A site about the end of the stored bytes.
    StoredEnd,
    /// An allocation under the stored length, or nearly.
    Allocation,
    /// A segment's iterated or records bit.
    SegmentFlag,
    /// One value of a fixed set.
    Systematic,
}

type Attempt = fn(&Image, &mut [u8], &mut Random) -> Option<Change>;

/// All kinds of damage that keep the length; one that stands here twice is the
/// more frequent.
const ATTEMPTS: [Attempt; 17] = [
    aimed::off_by_one,
    aimed::off_by_one,
    aimed::off_by_one,
    aimed::extreme,
    aimed::extreme,
    aimed::extreme,
    aimed::onto_table,
    aimed::image_end,
    aimed::allocation,
    aimed::segment_flag,
    sites::onto_span,
    sites::cycle,
    sites::site_extreme,
    sites::stored_end,
    blunt::flip,
    blunt::swap,
    blunt::scramble,
];

/// One damage, or now and then several at once.
pub fn damage(image: &Image, random: &mut Random) -> Damaged {
    let count = match random.below(10) {
        0 => 3,
        1 | 2 => 2,
        _ => 1,
    };
    let mut damaged = Damaged {
        bytes: image.bytes.clone(),
        changes: Vec::with_capacity(count),
    };
    for _ in 0..count {
        damaged
            .changes
            .extend(once(image, &mut damaged.bytes, random));
    }
    damaged
}

/// A kind that doesn't suit the image gives way to another.
fn once(image: &Image, bytes: &mut Vec<u8>, random: &mut Random) -> Option<Change> {
    let layout = &image.layout;
    if layout.fields.is_empty() || layout.tables.is_empty() || random.one_in(40) {
        return Some(blunt::extend(bytes, random));
    }
    (0..8).find_map(|_| match random.below(14) {
        0 => blunt::truncate(image, bytes, random),
        _ => random.pick(&ATTEMPTS)(image, bytes, random),
    })
}

/// Gives the field another number; nothing if the field was cut off, or if the
/// number isn't another one.
pub(crate) fn set(bytes: &mut [u8], aim: Aim, field: Field, to: u32) -> Option<Change> {
    if field.end() > bytes.len() {
        return None;
    }
    let from = field.read(bytes);
    let to = to & field.greatest();
    field.write(bytes, to);
    (from != to).then_some(Change::Field {
        aim,
        field,
        from,
        to,
    })
}

impl fmt::Display for Damaged {
    fn fmt(&self, f: &mut fmt::Formatter<'_>) -> fmt::Result {
        for (number, change) in self.changes.iter().enumerate() {
            let between = if number == 0 { "" } else { "; " };
            write!(f, "{between}{change}")?;
        }
        Ok(())
    }
}

impl fmt::Display for Change {
    fn fmt(&self, f: &mut fmt::Formatter<'_>) -> fmt::Result {
        match self {
            Change::Field {
                aim,
                field,
                from,
                to,
            } => {
                let (what, at) = (field.what, field.at);
                write!(f, "{aim:?}: {what:?} at {at:X}h from {from:X}h to {to:X}h")
            }
            Change::Swapped { first, second } => {
                let (one, other) = (first.what, second.what);
                let (at, by) = (first.at, second.at);
                write!(f, "swapped {one:?} at {at:X}h and {other:?} at {by:X}h")
            }
            Change::Flipped { at, bit } => write!(f, "flipped bit {bit} at {at:X}h"),
            Change::Scrambled { table, at, bytes } => {
                let what = table.what;
                write!(f, "scrambled {bytes} bytes of {what:?} at {at:X}h")
            }
            Change::Truncated { to } => write!(f, "truncated to {to} bytes"),
            Change::Extended { by } => write!(f, "extended by {by} bytes"),
        }
    }
}
