//! A walk of the entry table with a fault to choose.

use super::fault::{Fault, Stage};
use crate::stated;
use crate::tests::wrong::sound_header;
use reference::Entry;

/// The ordinal's entry.
pub fn walk(image: &[u8], number: u32, fault: Fault) -> Result<Entry, u32> {
    sound_header(image)?;
    let table = table(image, fault);
    let mut walk = Walk {
        segments: stated::segment_count(image),
        number,
        fault,
        rest: table,
        ordinals: 0,
        counted: 0,
        found: None,
    };
    if !table.is_empty() {
        walk.bundles()?;
    }
    walk.found.ok_or(15)
}

fn table(image: &[u8], fault: Fault) -> &[u8] {
    let table = stated::entry_table(image).unwrap_or_default();
    match (fault, table.first()) {
        (Fault::ImageIsTheLimit, Some(first)) => {
            let start = std::ptr::from_ref(first) as usize - image.as_ptr() as usize;
            &image[start..]
        }
        _ => table,
    }
}

struct Walk<'a> {
    segments: u32,
    /// The ordinal asked for.
    number: u32,
    fault: Fault,
    rest: &'a [u8],
    ordinals: u32,
    /// Toward 14.
    counted: u32,
    found: Option<Entry>,
}

impl<'a> Walk<'a> {
    fn is(&self, fault: Fault) -> bool {
        self.fault == fault
    }

    fn bundles(&mut self) -> Result<(), u32> {
        loop {
            match self.rest.split_first() {
                None if self.is(Fault::NoEndByte) => return Ok(()),
                None => return Err(12),
                Some((0, [_, ..])) if self.is(Fault::BytesBehindTheEnd) => {
                    self.rest = &self.rest[1..];
                }
                Some((0, _)) => return Ok(()),
                Some((count, behind)) => {
                    self.rest = behind;
                    self.bundle(u32::from(*count))?;
                }
            }
            if self.is(Fault::StopsAtTheOrdinal) && self.found.is_some() {
                return Ok(());
            }
        }
    }

    fn bundle(&mut self, count: u32) -> Result<(), u32> {
        self.count(count, Stage::BeforeSegmentByte)?;
        let (&segment, behind) = self.rest.split_first().ok_or(12u32)?;
        self.rest = behind;
        if segment != 0 || !self.is(Fault::NullsDontCount) {
            self.count(count, Stage::BeforeEntryBytes)?;
        }
        match segment {
            0 => self.nulls(count)?,
            255 => self.entries(segment, count, 6)?,
            _ => self.entries(segment, count, 3)?,
        }
        self.count(count, Stage::AfterSegments)
    }

    /// Toward 14, if this is the stage for it.
    fn count(&mut self, count: u32, stage: Stage) -> Result<(), u32> {
        if stage == self.fault.stage() {
            self.counted += count;
        }
        match self.counted > self.fault.most() {
            true => Err(14),
            false => Ok(()),
        }
    }

    fn nulls(&mut self, count: u32) -> Result<(), u32> {
        if !self.is(Fault::NullsUseNone) {
            self.ordinals += count;
        }
        self.count(count, Stage::AfterEntryBytes)
    }

    fn entries(&mut self, segment: u8, count: u32, width: usize) -> Result<(), u32> {
        let entries = self.entry_bytes(count as usize, width)?;
        self.count(count, Stage::AfterEntryBytes)?;
        for (index, bytes) in entries.chunks(width).enumerate() {
            let tested = index == 0 || !self.is(Fault::FirstEntryOnly);
            self.entry(segment, bytes, tested)?;
        }
        match entries.len() == width * count as usize {
            true => Ok(()),
            false => Err(12),
        }
    }

    /// The bytes of all entries, or with a fault of those that are there.
    fn entry_bytes(&mut self, count: usize, width: usize) -> Result<&'a [u8], u32> {
        let there = (self.rest.len() / width).min(count);
        if there < count && !self.is(Fault::EntryByEntry) {
            return Err(12);
        }
        let (entries, behind) = self.rest.split_at(width * there);
        self.rest = behind;
        Ok(entries)
    }

    fn entry(&mut self, segment_byte: u8, bytes: &[u8], tested: bool) -> Result<(), u32> {
        let (segment, offset) = match bytes {
            [_, _, _, segment, low, high] => (*segment, [*low, *high]),
            _ => (segment_byte, [bytes[1], bytes[2]]),
        };
        let marks = segment_byte == 255 || self.is(Fault::InterruptInFixed);
        if tested && ((marks && !self.marked(bytes)) || !self.holds(segment)) {
            return Err(13);
        }
        self.ordinals += 1;
        let ordinal = match self.fault {
            Fault::CountWraps => self.ordinals % 65_536,
            _ => self.ordinals,
        };
        if ordinal == self.number {
            self.found = Some(Entry {
                segment: u32::from(segment),
                offset: u32::from(u16::from_le_bytes(offset)),
                flag: u32::from(bytes[0]),
            });
        }
        Ok(())
    }

    fn marked(&self, bytes: &[u8]) -> bool {
        let (first, second) = (bytes[1] == 0xCD, bytes[2] == 0x3F);
        match self.fault {
            Fault::NoInterrupt => true,
            Fault::FirstInterruptByte => first,
            Fault::SecondInterruptByte => second,
            _ => first && second,
        }
    }

    /// Whether the segment is in the table.
    fn holds(&self, segment: u8) -> bool {
        let last = match self.fault {
            Fault::SegmentPastTheLast => self.segments + 1,
            Fault::SegmentCountInAByte => self.segments % 256,
            Fault::NoSegment255 => self.segments.min(254),
            _ => self.segments,
        };
        let least = u32::from(!self.is(Fault::MovableSegment0));
        (least..=last).contains(&u32::from(segment))
    }
}
