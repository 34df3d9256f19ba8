//! Where a record points.

use super::{Fault, Fixup};
use crate::stated;

#[derive(Clone, Copy)]
pub struct Target {
    pub selector: u16,
    pub offset: u16,
}

impl Fixup {
    /// Nothing if it doesn't resolve. The header is sound.
    pub fn target(&self, image: &[u8], answer: u32, selectors: &[u16]) -> Option<Target> {
        match self.relation {
            0 => self.internal(image, selectors),
            3 => None,
            relation => self.import(image, answer, relation == 2),
        }
    }

    fn internal(&self, image: &[u8], selectors: &[u16]) -> Option<Target> {
        let segment = match self.fault {
            Fault::NextByteRead => u32::from(self.first),
            _ => u32::from(self.first & 0xFF),
        };
        let (segment, offset) = match segment {
            255 if self.fault != Fault::Segment255IsASegment => self.ordinal(image)?,
            _ if self.holds(segment, stated::segment_count(image)) => (segment, self.last),
            _ => return None,
        };
        let missing = match self.fault {
            Fault::MissingSelectorIs0 | Fault::SelectorsOneShort => Some(0),
            Fault::SegmentPastTheLast => Some(0),
            _ => None,
        };
        let selector = selectors.get(segment as usize - 1).copied().or(missing)?;
        Some(Target { selector, offset })
    }

    fn holds(&self, segment: u32, count: u32) -> bool {
        let last = match self.fault {
            Fault::SegmentPastTheLast => count + 1,
            Fault::Segment254Missing => count.min(253),
            _ => count,
        };
        (1..=last).contains(&segment)
    }

    fn ordinal(&self, image: &[u8]) -> Option<(u32, u16)> {
        match reference::ordinal(image, u32::from(self.last)) {
            Ok(entry) => Some((entry.segment, entry.offset as u16)),
            Err(15) if self.fault == Fault::NullOrdinalsResolve => Some((1, 0)),
            Err(12..=14) if self.fault == Fault::UnsoundEntriesResolve => Some((1, 0)),
            Err(_) => None,
        }
    }

    fn import(&self, image: &[u8], answer: u32, by_name: bool) -> Option<Target> {
        let count = stated::module_count(image);
        let last = count + u32::from(self.fault == Fault::ModulePastTheLast);
        let module = match self.fault {
            Fault::ModuleInAByte => u32::from(self.first & 0xFF),
            _ => u32::from(self.first),
        };
        let named = by_name || self.fault == Fault::StringByOrdinalToo;
        if !(1..=last).contains(&module) || (named && !self.string(image)) {
            return None;
        }
        let (low, high) = (answer as u16, (answer >> 16) as u16);
        Some(match self.fault {
            Fault::AnswerHalvesExchanged => Target {
                selector: low,
                offset: high,
            },
            _ => Target {
                selector: high,
                offset: low,
            },
        })
    }

    /// Whether the imported string is sound.
    fn string(&self, image: &[u8]) -> bool {
        let place = stated::place(image, 0x2A).unwrap_or(usize::MAX / 2);
        let at = place + usize::from(self.last);
        let limit = match self.fault {
            Fault::StringOneByteMore => image.len() + 1,
            Fault::StringOneByteLess => image.len() - 1,
            _ => image.len(),
        };
        match image.get(at) {
            _ if self.fault == Fault::StringNotLookedAt => true,
            None => false,
            Some(0) => self.fault == Fault::EmptyStringIsSound,
            Some(length) => at + 1 + usize::from(*length) <= limit,
        }
    }
}
