//! The edges of refusals 1 to 7, which every call does first.

mod image;
mod order;
mod place;
mod shift;
mod tables;
mod untested;

use super::judge::{Edges, Judge};
use super::minimal::Minimal;
use crate::calls::{FieldsOf, Query, Request};

/// Images to change one thing in.
pub trait Images {
    /// Those of an accepted answer.
    type Fields: Copy;

    /// 144 bytes: the NE header at 64 with shift 0, one segment's record at
    /// 128, and what the query needs, which ends before the last byte or with
    /// it. Where the query doesn't need them there are no modules, and there
    /// are no nonresident names. The last byte is 0 if the query reads those.
    fn plain() -> Minimal;

    /// Where in it those bytes start that the query needs.
    const NEEDED_FROM: usize;

    /// What is given there.
    const PLAIN: Self::Fields;

    /// What is given where something is changed in it that passes all checks:
    /// the same, but for the query that gives the header itself.
    fn fields(_: &Minimal) -> Self::Fields {
        Self::PLAIN
    }

    /// The same, but that the query's own checks refuse what is asked.
    fn unsound() -> Minimal;

    /// An image that ends with its NE header, which is here and has in it all
    /// that the query needs. The answer is the same at every shift.
    fn in_header(place: usize) -> Minimal;

    /// What is given there.
    fn fields_in_header(image: &Minimal) -> Self::Fields;

    /// The tables that the query reads, apart from the segments' records.
    const READS: &'static [Table];
}

/// What these edges need of a query.
pub trait HeaderEdges: Query {
    type Images: Images<Fields = FieldsOf<Self>>;

    /// What is asked for.
    fn asked() -> Self::Request;

    /// Requests that are refused on the plain image, or for which it has
    /// another answer.
    fn others() -> Vec<Self::Request>;

    /// What is given, or the refusal, where no table has a size or a place and
    /// the shift is 15.
    const WITHOUT_TABLES: Result<FieldsOf<Self>, u32>;

    fn plain() -> Minimal {
        Self::Images::plain()
    }

    fn unsound() -> Minimal {
        Self::Images::unsound()
    }

    fn in_header(place: usize) -> Minimal {
        Self::Images::in_header(place)
    }
}

/// A table that some queries read and others don't.
#[derive(Clone, Copy, PartialEq, Eq)]
pub enum Table {
    Entries,
    ResidentNames,
    NonresidentNames,
    Modules,
    ImportedNames,
    Resources,
}

pub fn by_subject<Q: HeaderEdges>() -> Vec<Edges<Q>> {
    vec![
        ("image (1 to 3)", image::edges),
        ("NE header (4, 5)", place::edges),
        ("alignment shift (6)", shift::edges),
        ("sized tables (7)", tables::edges),
        ("order of 1 to 7", order::edges),
        ("what no check of 1 to 7 looks at", untested::edges),
    ]
}

/// Whether the query reads the table.
fn reads<Q: HeaderEdges>(table: Table) -> bool {
    Q::Images::READS.contains(&table)
}

impl<Q: HeaderEdges> Judge<Q> {
    /// What is asked is answered as on the plain image.
    pub fn accepts_plain(&mut self, name: &str, image: &Minimal) {
        self.accepts(name, image, Q::asked(), Q::Images::fields(image));
    }

    /// What is asked is answered from what the NE header holds.
    fn accepts_in_header(&mut self, name: &str, image: &Minimal) {
        let fields = Q::Images::fields_in_header(image);
        self.accepts(name, image, Q::asked(), fields);
    }

    /// What is asked is answered as where there are no tables.
    fn answers_without_tables(&mut self, name: &str, image: &Minimal) {
        match Q::WITHOUT_TABLES {
            Ok(fields) => self.accepts(name, image, Q::asked(), fields),
            Err(refusal) => self.refuses_asked(name, image, refusal),
        }
    }

    /// What is asked is refused.
    fn refuses_asked(&mut self, name: &str, image: &Minimal, refusal: u32) {
        self.refuses(name, image, Q::asked(), refusal);
    }

    /// All that isn't asked elsewhere is refused.
    fn refuses_others(&mut self, name: &str, image: &Minimal, refusal: u32) {
        for request in Q::others() {
            let name = format!("{name}, {}", request.text());
            self.refuses(&name, image, request, refusal);
        }
    }

    /// The refusal is given whatever is asked for.
    pub fn refuses_all(&mut self, name: &str, image: &Minimal, refusal: u32) {
        self.refuses_asked(name, image, refusal);
        self.refuses_others(name, image, refusal);
    }
}
