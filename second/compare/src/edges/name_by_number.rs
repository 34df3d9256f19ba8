//! The edges of the name query by number.

mod number;

use super::header::HeaderEdges;
use super::judge::{self, Edges};
use super::names::{self, NameEdges, NameImages};
use super::GREAT;
use crate::calls::{FieldsOf, NameByNumber};

type Judge = judge::Judge<NameByNumber>;

pub fn by_subject() -> Vec<Edges<NameByNumber>> {
    names::by_subject(&[("number (8)", number::edges)])
}

impl NameEdges for NameByNumber {
    fn request_for(number: u32, _: &[u8]) -> u32 {
        number
    }

    const NOT_THERE: u32 = 8;
}

impl HeaderEdges for NameByNumber {
    type Images = NameImages;

    fn asked() -> u32 {
        2
    }

    fn others() -> Vec<u32> {
        [0, 1, 3].into_iter().chain(GREAT).collect()
    }

    const WITHOUT_TABLES: Result<FieldsOf<Self>, u32> = Err(names::WITHOUT_TABLES);
}
