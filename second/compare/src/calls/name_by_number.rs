//! The name query by number.

use super::numbers::{number_to_ask, Worth};
use super::Query;
use crate::edges::{self, judge::Edges};
use crate::inputs::Input;
use crate::library::{self, Lent};
use crate::results::NameResult;
use crate::stated;
use builder::Random;
use reference::Name;

/// Asks for a name by its number in both lists.
pub struct NameByNumber;

impl Query for NameByNumber {
    type Request = u32;
    type Values = Name;
    type Why = u32;
    type Result = NameResult;

    const NAME: &'static str = "ne_name_by_number";
    const ANSWERS: &'static [u32] = &[0, 1, 2, 3, 4, 5, 6, 7, 8, 16];

    fn exported(image: Lent, number: &u32) -> NameResult {
        library::name_by_number(image, *number)
    }

    fn reference(image: &[u8], number: &u32) -> Result<Name, u32> {
        reference::name_by_number(image, *number)
    }

    /// The first nonresident name too.
    fn worth_asking(input: &Input, request: u64, random: &mut Random) -> u32 {
        let names = stated::names(&input.bytes);
        let last = names.len() as u32;
        let resident = names.iter().filter(|name| name.resident).count() as u32;
        let any = 1 + random.below(names.len()) as u32;
        let worth = Worth {
            last,
            inside: [resident + 1, any],
        };
        number_to_ask(&worth, request, random)
    }

    fn edges_by_subject() -> Vec<Edges<Self>> {
        edges::name_by_number::by_subject()
    }
}
