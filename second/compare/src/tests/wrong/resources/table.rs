//! A look at the resource table, with a fault to choose.

use super::fault::Fault;
use super::found::{Asked, Finder};
use crate::stated;
use crate::tests::wrong::sound_header;
use reference::Resource;

pub fn look_up(image: &[u8], asked: Asked, fault: Fault) -> Result<Resource, u32> {
    sound_header(image)?;
    if fault == Fault::NamesChecked && reference::name_by_number(image, 0) == Err(16) {
        return Err(16);
    }
    if fault == Fault::NeverThereFirst && asked.is_never_there() {
        return Err(asked.not_there());
    }
    let mut table = Table {
        image,
        fault,
        finder: Finder::new(asked, fault, image.len()),
    };
    let sound = table.walk();
    match sound {
        None if fault == Fault::NotThereFirst && !table.finder.has_found() => {
            Err(asked.not_there())
        }
        None => Err(18),
        Some(()) => table.finder.answer(),
    }
}

struct Table<'a> {
    image: &'a [u8],
    fault: Fault,
    finder: Finder,
}

impl Table<'_> {
    fn is(&self, fault: Fault) -> bool {
        self.fault == fault
    }

    /// Hands every resource to the finder; nothing where the table is unsound.
    fn walk(&mut self) -> Option<()> {
        let Some(start) = self.start()? else {
            return Some(());
        };
        let shift = self.shift(start)?;
        let mut at = start + 2;
        loop {
            if self.is(Fault::NoType0) && at == self.image.len() {
                return Some(());
            }
            let type_word = self.word(at)?;
            if type_word == 0 {
                return self.inside(at, if self.is(Fault::Type0OfABlock) { 8 } else { 2 });
            }
            let (count, bytes) = self.block(at)?;
            self.finder.block(type_word, count);
            for index in 0..count {
                self.resource(at + 8 + 12 * index, shift);
            }
            let enough = self.is(Fault::StopsWhenFound) && self.finder.has_found();
            if enough || self.is(Fault::FirstBlockAlone) {
                return Some(());
            }
            at += bytes;
        }
    }

    /// The table's place; none within where there are no resources.
    fn start(&self) -> Option<Option<usize>> {
        let place = stated::place(self.image, 0x24)?;
        let resident = stated::place(self.image, 0x26)?;
        let header = stated::header_at(self.image)?;
        let none = match self.fault {
            Fault::EqualPlacesRead => false,
            Fault::ZeroPlaceIsNone => place == header,
            Fault::EqualPlacesOutside => place == resident && self.inside(place, 2).is_some(),
            _ => place == resident,
        };
        let start = match self.fault {
            Fault::PlaceIn16Bits => place & 0xFFFF,
            Fault::PlaceFromTheStart => place - header,
            _ => place,
        };
        Some((!none).then_some(start))
    }

    fn shift(&self, start: usize) -> Option<u32> {
        let shift = match self.fault {
            Fault::AlignmentShift => stated::ne_word(self.image, 0x32)?,
            Fault::ShiftIn8Bits => self.word(start)? & 0xFF,
            _ => self.word(start)?,
        };
        let most = match self.fault {
            Fault::Shift16Accepted => 16,
            Fault::Shift15Refused => 14,
            Fault::ShiftOfNoResources if self.word(start + 2)? == 0 => 65_535,
            _ => 15,
        };
        (shift <= most).then_some(shift)
    }

    /// The count of a block that lies in the image, and its bytes.
    fn block(&self, at: usize) -> Option<(usize, usize)> {
        let count = self.word(at + 2)? as usize;
        let count = match self.fault {
            Fault::CountIn8Bits => count & 0xFF,
            _ => count,
        };
        let bytes = match self.fault {
            Fault::ProductIn16Bits => 8 + (12 * count) % 65_536,
            _ => 8 + 12 * count,
        };
        self.inside(at, bytes)?;
        Some((count, bytes))
    }

    fn resource(&mut self, at: usize, shift: u32) {
        let word = |offset: usize| self.word(at + offset).unwrap_or(0);
        let shifted = |word: u32| word.checked_shl(shift).unwrap_or(0);
        let (offset, length) = (word(0), word(2));
        let resource = Resource {
            type_: 0,
            id: word(6),
            flags: word(4),
            data_at: match self.fault {
                Fault::LengthAlone | Fault::NeitherShifted => offset,
                _ => shifted(offset),
            },
            data_len: match self.fault {
                Fault::OffsetAlone | Fault::NeitherShifted => length,
                _ => shifted(length),
            },
        };
        self.finder.resource(resource);
    }

    fn inside(&self, at: usize, bytes: usize) -> Option<()> {
        let limit = self.image.len() + usize::from(self.is(Fault::OneByteMore));
        (at + bytes <= limit).then_some(())
    }

    /// Bytes outside are 0, if a fault lets them be read.
    fn word(&self, at: usize) -> Option<u32> {
        self.inside(at, 2)?;
        let byte = |at: usize| u32::from(self.image.get(at).copied().unwrap_or(0));
        Some(byte(at) | byte(at + 1) << 8)
    }
}
