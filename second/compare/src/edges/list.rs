//! The listing's edges.

mod digits;
mod examples;
mod lengths;
mod refused;
mod room;

use super::header::{self, HeaderEdges, Images, Table};
use super::judge::{self, Edges};
use super::minimal::Minimal;
use super::ordinal::{ended, fixed, module, movable, nulls, OrdinalImages};
use crate::calls::{FieldsOf, Held, List, Listing};

type Judge = judge::Judge<List>;

pub fn by_subject() -> Vec<Edges<List>> {
    let own: [Edges<List>; 5] = [
        ("P10 and P11", examples::edges),
        ("entry table (7, 12 to 14)", refused::edges),
        ("digits", digits::edges),
        ("lent room", room::edges),
        ("long images and listings", lengths::edges),
    ];
    header::by_subject().into_iter().chain(own).collect()
}

impl Judge {
    /// The listing is this text, in room for a little more, for exactly as much
    /// and for one byte less.
    fn lists(&mut self, name: &str, image: &Minimal, text: &str) {
        for length in [text.len() + 3, text.len(), text.len() - 1] {
            let request = Listing::in_room(length);
            let name = format!("{name}, in {length} bytes");
            self.expects(&name, image, &request, &request.says(text));
        }
    }
}

impl HeaderEdges for List {
    type Images = ListImages;

    fn asked() -> Listing {
        Listing::in_room(30)
    }

    /// A refusal takes 10 bytes or 11.
    fn others() -> Vec<Listing> {
        let none = [0, 1, usize::MAX].map(|address| Listing {
            room: Held::NothingAt(address),
        });
        let some = [0, 1, 8, 9, 10, 11, 12, 300].map(Listing::in_room);
        none.into_iter().chain(some).collect()
    }

    const WITHOUT_TABLES: Result<FieldsOf<Self>, u32> = Ok((
        15,
        b"ordinals 0\nend\n\x10\x11\x12\x13\x14\x15\x16\x17\x18\x19\x1A\x1B\x1C\x1D\x1E",
    ));
}

/// The images of the ordinal query.
pub struct ListImages;

impl Images for ListImages {
    type Fields = (usize, &'static [u8]);

    fn plain() -> Minimal {
        OrdinalImages::plain()
    }

    const NEEDED_FROM: usize = OrdinalImages::NEEDED_FROM;

    const PLAIN: Self::Fields = (27, b"ordinals 1\n1 1:1234 A5\nend\n\x1C\x1D\x1E");

    fn unsound() -> Minimal {
        OrdinalImages::unsound()
    }

    fn in_header(place: usize) -> Minimal {
        OrdinalImages::in_header(place)
    }

    fn fields_in_header(_: &Minimal) -> Self::Fields {
        Self::PLAIN
    }

    const READS: &'static [Table] = OrdinalImages::READS;
}
