//! Sound descriptions from a seed: every call that document 01 defines can be
//! accepted on the images, but for iterated segments, a few module strings and
//! a few resources whose data leaves the image.

mod entries;
mod fixups;
mod imports;
mod names;
mod order;
mod resources;
mod segments;
mod shape;

use crate::assemble::{assemble, Image};
use crate::description::Description;
use crate::random::Random;
use shape::Shape;

pub(crate) use fixups::Targets;

/// An image with lists that suit preparing any of its segments.
#[derive(Clone, Debug)]
pub struct Case {
    pub description: Description,
    pub image: Image,
    /// At least one for each segment.
    pub selectors: Vec<u16>,
    /// At least as many as the longest record list has records.
    pub answers: Vec<u32>,
}

/// The case of a seed.
pub fn generate(seed: u64) -> Case {
    generate_from(&mut Random::new(seed))
}

/// The next case of a stream.
pub fn generate_from(random: &mut Random) -> Case {
    loop {
        let mut description = describe(random);
        // Shapes are chosen so that they fit; a miss is drawn again.
        let Ok(image) = assemble(&description) else {
            continue;
        };
        if !resources::aim(&mut description, image.bytes.len(), random) {
            return Case::new(description, image, random);
        }
        if let Ok(image) = assemble(&description) {
            return Case::new(description, image, random);
        }
    }
}

impl Case {
    /// Adds random lists that are long enough.
    pub fn new(description: Description, image: Image, random: &mut Random) -> Self {
        let records = |segment: &crate::description::Segment| segment.fixups.len();
        let longest = description.segments.iter().map(records).max().unwrap_or(0);
        let selectors = description.segments.len() + random.below(3);
        let answers = longest + random.below(3);
        Case {
            selectors: (0..selectors).map(|_| random.edge_u16()).collect(),
            answers: (0..answers).map(|_| random.edge_u32()).collect(),
            description,
            image,
        }
    }
}

fn describe(random: &mut Random) -> Description {
    let shape = Shape::choose(random);
    let mut description = Description::empty();
    description.shift = shape.shift;
    description.entries = entries::entry_table(random, shape.segments);
    names::name_lists(&mut description, &shape, random);
    imports::imports(&mut description, &shape, random);
    let ordinals = description.entries.used_ordinals();
    let strings = imports::sound_strings(&description.imported, random);
    let targets = Targets {
        segments: shape.segments,
        ordinals: &ordinals,
        modules: description.modules.len(),
        strings: &strings,
    };
    description.segments = segments::segments(random, &shape, &targets);
    description.resources = resources::resources(random, &shape);
    fill(&mut description, &shape, random);
    order::arrange(&mut description, &shape, random);
    description
}

/// Draws the bytes that no rule looks at.
fn fill(description: &mut Description, shape: &Shape, random: &mut Random) {
    if random.chance(50) {
        random.fill(&mut description.mz_fill);
        random.fill(&mut description.header_fill);
    }
    if shape.resident_over_header || shape.resources_over_header {
        // Those tables are read from the zeros here.
        description.header_fill[0x34..].fill(0);
    }
    description.filler = if random.chance(50) { 0 } else { random.byte() };
    description.tail = match random.below(10) {
        0..=5 => 0,
        6 => 1,
        _ => random.below(50) as u32,
    };
}
