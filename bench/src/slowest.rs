//! Segments that may take long to prepare, each beside segments of the same
//! sites and types whose targets are direct.

mod chains;
pub(crate) mod entries;
mod families;
mod records;
mod tables;
mod targets;

use crate::inputs::module::{Module, SEGMENTS};
use crate::inputs::Input;

pub use families::families;
pub use records::Types;
pub(crate) use tables::entry_tables;

/// How large the images may be.
#[derive(Clone, Copy)]
pub struct Size {
    /// Stored bytes of the segment.
    pub stored: usize,
    /// Bytes of a table.
    pub table: usize,
    /// Segments, where there are many.
    pub segments: usize,
}

impl Size {
    /// All that the format has room for.
    pub const LARGEST: Size = Size {
        stored: 65_536,
        table: 65_535,
        segments: 65_535,
    };
}

/// Segments that are slow for one reason.
pub struct Family {
    /// The reason, for the table.
    pub name: &'static str,
    /// The ways in which they can be made.
    pub variants: Vec<Variant>,
    /// The types that their records may have; the first is tried with every
    /// variant.
    pub types: Vec<Types>,
}

/// One way in which the segments of a family can be made.
pub struct Variant {
    /// What sets it apart, for the table.
    pub name: String,
    make: Box<dyn Fn(Types) -> Modules>,
}

/// The modules of a candidate.
struct Modules {
    slow: Module,
    direct: Module,
    sites: usize,
}

/// A segment that may be slow.
pub struct Candidate {
    /// The segment itself.
    pub slow: Input,
    /// The same tables, sites and types, but direct targets.
    pub direct: Input,
    /// Direct targets, and no tables that they don't need.
    pub bare: Input,
    /// How many sites each of them has.
    pub sites: usize,
}

impl Variant {
    fn new(name: impl Into<String>, make: impl Fn(Types) -> Modules + 'static) -> Variant {
        Variant {
            name: name.into(),
            make: Box::new(make),
        }
    }

    /// The slow segment as each of so many.
    pub fn in_every_segment(&self, types: Types, segments: usize) -> Input {
        let mut module = (self.make)(types).slow;
        module.segments = segments;
        Input::new(format!("{}, {types}", self.name), &module)
    }

    /// The candidate whose records have these types.
    pub fn candidate(&self, types: Types) -> Candidate {
        let Modules {
            slow,
            direct,
            sites,
        } = (self.make)(types);
        let mut bare = direct.clone();
        bare.segments = SEGMENTS;
        bare.entries.clear();
        bare.imported.clear();
        let input = |kind: &str, module: &Module| {
            let name = format!("{}, {types}, {kind}", self.name);
            Input::new(name, module)
        };
        Candidate {
            slow: input("slow", &slow),
            direct: input("direct", &direct),
            bare: input("bare", &bare),
            sites,
        }
    }
}
