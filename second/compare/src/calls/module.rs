//! The module query.

use super::numbers::{number_to_ask, Worth};
use super::Query;
use crate::edges::{self, judge::Edges};
use crate::inputs::Input;
use crate::library::{self, Lent};
use crate::results::ModuleResult;
use crate::stated;
use builder::Random;
use reference::Module;

/// Asks for a module reference by its number.
pub struct ModuleQuery;

impl Query for ModuleQuery {
    type Request = u32;
    type Values = Module;
    type Why = u32;
    type Result = ModuleResult;

    const NAME: &'static str = "ne_module";
    const ANSWERS: &'static [u32] = &[0, 1, 2, 3, 4, 5, 6, 7, 8, 16];

    fn exported(image: Lent, number: &u32) -> ModuleResult {
        library::module(image, *number)
    }

    fn reference(image: &[u8], number: &u32) -> Result<Module, u32> {
        reference::module(image, *number)
    }

    fn worth_asking(input: &Input, request: u64, random: &mut Random) -> u32 {
        let last = stated::module_count(&input.bytes);
        let worth = Worth::up_to(last, random);
        number_to_ask(&worth, request, random)
    }

    fn edges_by_subject() -> Vec<Edges<Self>> {
        edges::module::by_subject()
    }
}
