//! The slowest images that were found: for preparing a segment, for all segments
//! of a file, and for the queries.

mod queries;
mod search;
mod segments;
mod whole_file;

use bench::slowest::{families, Family, Size};

pub use queries::table as queries;

/// Prints the tables of segments and of whole files, for the families whose names
/// have this part.
pub fn segments(part: &str) {
    let families = named(part);
    let found = segments::table(&families);
    whole_file::table(&found);
}

/// Whether there is such a family.
pub fn has_family(part: &str) -> bool {
    !named(part).is_empty()
}

fn named(part: &str) -> Vec<Family> {
    let mut families = families(Size::LARGEST);
    families.retain(|family| family.name.contains(part));
    families
}
