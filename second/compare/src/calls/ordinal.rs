//! The ordinal query.

use super::numbers::{number_to_ask, Worth};
use super::Query;
use crate::edges::{self, judge::Edges};
use crate::inputs::Input;
use crate::library::{self, Lent};
use crate::results::OrdinalResult;
use crate::stated::{self, Bundle};
use builder::Random;
use reference::Entry;

/// Asks for the entry of an ordinal.
pub struct OrdinalQuery;

impl Query for OrdinalQuery {
    type Request = u32;
    type Values = Entry;
    type Why = u32;
    type Result = OrdinalResult;

    const NAME: &'static str = "ne_ordinal";
    const ANSWERS: &'static [u32] = &[0, 1, 2, 3, 4, 5, 6, 7, 12, 13, 14, 15];

    fn exported(image: Lent, number: &u32) -> OrdinalResult {
        library::ordinal(image, *number)
    }

    fn reference(image: &[u8], number: &u32) -> Result<Entry, u32> {
        reference::ordinal(image, *number)
    }

    /// A null ordinal and a movable one, where there are such.
    fn worth_asking(input: &Input, request: u64, random: &mut Random) -> u32 {
        let bundles = stated::bundles(&input.bytes);
        let last = bundles.last().map_or(0, Bundle::last);
        let any = ordinal_of(&bundles, |_| true, random).unwrap_or(1);
        let null = ordinal_of(&bundles, |bundle| bundle.segment == 0, random);
        let movable = ordinal_of(&bundles, |bundle| bundle.segment == 255, random);
        let worth = Worth {
            last,
            inside: [
                null.unwrap_or(any),
                movable.filter(|_| random.chance(50)).unwrap_or(any),
            ],
        };
        number_to_ask(&worth, request, random)
    }

    fn edges_by_subject() -> Vec<Edges<Self>> {
        edges::ordinal::by_subject()
    }
}

/// An ordinal of one of the bundles that `wanted` holds for: often the first or
/// the last of that bundle.
fn ordinal_of(
    bundles: &[Bundle],
    wanted: impl Fn(&Bundle) -> bool,
    random: &mut Random,
) -> Option<u32> {
    let wanted: Vec<&Bundle> = bundles.iter().filter(|bundle| wanted(bundle)).collect();
    if wanted.is_empty() {
        return None;
    }
    let bundle = random.pick(&wanted);
    let inside = bundle.first + random.below(usize::from(bundle.count)) as u32;
    Some(random.pick(&[bundle.first, bundle.last(), inside]))
}
