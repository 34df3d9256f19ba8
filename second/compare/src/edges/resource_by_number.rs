//! The edges of the resource query by number.

mod number;

use super::header::HeaderEdges;
use super::judge::{self, Edges};
use super::resources::{self, ResourceEdges, ResourceImages};
use super::{other_numbers, GREAT};
use crate::calls::{FieldsOf, ResourceByNumber};

type Judge = judge::Judge<ResourceByNumber>;

pub fn by_subject() -> Vec<Edges<ResourceByNumber>> {
    resources::by_subject(&[("number (8)", number::edges)])
}

impl ResourceEdges for ResourceByNumber {
    fn request_for(number: u32, _: u32, _: u32) -> u32 {
        number
    }

    const NOT_THERE: u32 = 8;
}

impl HeaderEdges for ResourceByNumber {
    type Images = ResourceImages;

    fn asked() -> u32 {
        1
    }

    fn others() -> Vec<u32> {
        other_numbers()
    }

    const WITHOUT_TABLES: Result<FieldsOf<Self>, u32> = Err(8);
}
