//! The segment query.

use super::numbers::{number_to_ask, Worth};
use super::Query;
use crate::edges::{self, judge::Edges};
use crate::inputs::Input;
use crate::library::{self, Lent};
use crate::results::SegmentResult;
use crate::stated;
use builder::Random;
use reference::Segment;

/// Asks for a segment by its number.
pub struct SegmentQuery;

impl Query for SegmentQuery {
    type Request = u32;
    type Values = Segment;
    type Why = u32;
    type Result = SegmentResult;

    const NAME: &'static str = "ne_segment";
    const ANSWERS: &'static [u32] = &[0, 1, 2, 3, 4, 5, 6, 7, 8, 9, 10, 11];

    fn exported(image: Lent, number: &u32) -> SegmentResult {
        library::segment(image, *number)
    }

    fn reference(image: &[u8], number: &u32) -> Result<Segment, u32> {
        reference::segment(image, *number)
    }

    fn worth_asking(input: &Input, request: u64, random: &mut Random) -> u32 {
        let last = stated::segment_count(&input.bytes);
        let any = 1 + random.below(last as usize) as u32;
        let worth = Worth {
            last,
            inside: [input.segment.unwrap_or(any), any],
        };
        number_to_ask(&worth, request, random)
    }

    fn edges_by_subject() -> Vec<Edges<Self>> {
        edges::segment::by_subject()
    }
}
