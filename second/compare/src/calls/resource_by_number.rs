//! The resource query by number.

use super::numbers::{number_to_ask, Worth};
use super::Query;
use crate::edges::{self, judge::Edges};
use crate::inputs::Input;
use crate::library::{self, Lent};
use crate::results::ResourceResult;
use crate::stated;
use builder::Random;
use reference::Resource;

/// Asks for a resource by its number, all types together.
pub struct ResourceByNumber;

impl Query for ResourceByNumber {
    type Request = u32;
    type Values = Resource;
    type Why = u32;
    type Result = ResourceResult;

    const NAME: &'static str = "ne_resource_by_number";
    const ANSWERS: &'static [u32] = &[0, 1, 2, 3, 4, 5, 6, 7, 8, 18, 20];

    fn exported(image: Lent, number: &u32) -> ResourceResult {
        library::resource_by_number(image, *number)
    }

    fn reference(image: &[u8], number: &u32) -> Result<Resource, u32> {
        reference::resource_by_number(image, *number)
    }

    fn worth_asking(input: &Input, request: u64, random: &mut Random) -> u32 {
        let last = stated::resources(&input.bytes).len() as u32;
        let worth = Worth::up_to(last, random);
        number_to_ask(&worth, request, random)
    }

    fn edges_by_subject() -> Vec<Edges<Self>> {
        edges::resource_by_number::by_subject()
    }
}
