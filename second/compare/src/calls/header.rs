//! The header query.

use super::{Query, Whole};
use crate::edges::{self, judge::Edges};
use crate::inputs::Input;
use crate::library::{self, Lent};
use crate::results::HeaderResult;
use builder::Random;
use reference::Tables;

/// Asks where the tables stand.
pub struct HeaderQuery;

impl Query for HeaderQuery {
    type Request = Whole;
    type Values = Tables;
    type Why = u32;
    type Result = HeaderResult;

    const NAME: &'static str = "ne_header";
    const ANSWERS: &'static [u32] = &[0, 1, 2, 3, 4, 5, 6, 7];

    /// There is one thing to ask.
    const WORTH: u64 = 1;

    fn exported(image: Lent, _: &Whole) -> HeaderResult {
        library::header(image)
    }

    fn reference(image: &[u8], _: &Whole) -> Result<Tables, u32> {
        reference::tables(image)
    }

    fn worth_asking(_: &Input, _: u64, _: &mut Random) -> Whole {
        Whole
    }

    fn edges_by_subject() -> Vec<Edges<Self>> {
        edges::tables::by_subject()
    }
}
