//! A look at both name lists, with a fault to choose.

use super::fault::Fault;
use super::matches::Asked;
use crate::stated;
use crate::tests::wrong::sound_header;
use reference::Name;

pub fn look_up(image: &[u8], asked: Asked, fault: Fault) -> Result<Name, u32> {
    sound_header(image)?;
    if fault == Fault::EntryTableWalked {
        if let Err(refusal @ 12..=14) = reference::ordinal(image, 1) {
            return Err(refusal);
        }
    }
    if fault == Fault::NeverThereFirst && asked.is_never_there() {
        return Err(asked.not_there());
    }
    let mut search = Search {
        image,
        asked,
        fault,
        number: 0,
        strings: 0,
        found: None,
    };
    search.lists()
}

/// The places where a list starts and where it has to end.
struct List {
    start: usize,
    end: usize,
    resident: bool,
}

struct Search<'a> {
    image: &'a [u8],
    asked: Asked<'a>,
    fault: Fault,
    /// Of the last string.
    number: u32,
    /// Of both lists.
    strings: u32,
    found: Option<Name>,
}

impl Search<'_> {
    fn is(&self, fault: Fault) -> bool {
        self.fault == fault
    }

    fn lists(&mut self) -> Result<Name, u32> {
        let (resident, nonresident) = (self.resident(), self.nonresident());
        let mut lists = vec![resident];
        lists.extend(nonresident);
        if self.is(Fault::NonresidentFirst) {
            lists.reverse();
        }
        let mut sound = true;
        for list in &lists {
            sound &= self.walk(list) || self.is_unchecked(list);
            if self.is(Fault::FoundIsEnough) && sound {
                if let Some(found) = self.found {
                    return Ok(found);
                }
            }
        }
        match self.found {
            None if sound || self.is(Fault::NotThereFirst) => Err(self.asked.not_there()),
            Some(found) if sound => Ok(found),
            _ => Err(16),
        }
    }

    fn is_unchecked(&self, list: &List) -> bool {
        match list.resident {
            true => self.is(Fault::ResidentUnchecked),
            false => self.is(Fault::NonresidentUnchecked),
        }
    }

    fn resident(&self) -> List {
        let place = stated::place(self.image, 0x26).unwrap_or(0);
        let header = stated::header_at(self.image).unwrap_or(0);
        List {
            start: match self.fault {
                Fault::ResidentPlaceIn16Bits => place & 0xFFFF,
                Fault::ResidentFromTheStart => place - header,
                _ => place,
            },
            end: self.limit(self.image.len()),
            resident: true,
        }
    }

    fn nonresident(&self) -> Option<List> {
        let place = stated::nonresident_place(self.image)?;
        let start = match self.fault {
            Fault::NonresidentFromTheHeader => place + stated::header_at(self.image)?,
            _ => place,
        };
        let end = match stated::nonresident_size(self.image)? {
            0 if self.is(Fault::SizeIsIgnored) => self.image.len(),
            0 => return None,
            _ if self.is(Fault::ImageIsTheLimit) => self.image.len(),
            size => self.limit(start + size),
        };
        Some(List {
            start,
            end,
            resident: false,
        })
    }

    fn limit(&self, end: usize) -> usize {
        end + usize::from(self.is(Fault::OneByteMore))
    }

    /// Whether the list is sound.
    fn walk(&mut self, list: &List) -> bool {
        if self.is(Fault::NumbersStartAgain) {
            self.number = 0;
        }
        let mut at = list.start;
        let mut first = true;
        while at < list.end {
            let length = usize::from(self.byte(at));
            if self.ends(length) {
                if self.is(Fault::BytesBehindTheEnd) && !list.resident && at + 1 < list.end {
                    at += 1;
                    continue;
                }
                return !(self.is(Fault::EmptyListUnsound) && at == list.start);
            }
            if at + 1 + length + 2 > list.end {
                return false;
            }
            self.string(at, length, first, list.resident);
            first = false;
            at += length + 3;
        }
        let outside = list.resident && list.start >= list.end;
        self.is(Fault::NoEndByte) && !outside || self.is(Fault::OutsideIsEmpty) && outside
    }

    fn ends(&self, length: usize) -> bool {
        length == 0 || self.is(Fault::LengthIsSigned) && length >= 0x80
    }

    fn string(&mut self, at: usize, length: usize, first: bool, resident: bool) {
        self.strings += 1;
        if !(first && self.is(Fault::FirstStringsUncounted)) {
            self.number += 1;
        }
        let text = self.image.get(at + 1..at + 1 + length).unwrap_or_default();
        let name = self.name(at, length);
        let matches = match self.asked {
            Asked::Number(number) => name.number == number,
            Asked::Text(asked) => {
                self.is_searched(first, resident) && self.fault.holds_of(asked, text)
            }
        };
        if matches && (self.found.is_none() || self.is(Fault::LastMatch)) {
            self.found = Some(name);
        }
    }

    /// Whether a string takes part in the comparison of bytes.
    fn is_searched(&self, first: bool, resident: bool) -> bool {
        match self.fault {
            Fault::FirstStringsFound => true,
            Fault::ResidentFirstFound => !first || resident,
            Fault::NonresidentFirstFound => !first || !resident,
            Fault::OneSkippedInAll => self.strings > 1,
            Fault::TwoSkipped => !first && self.strings > 2,
            _ => !first,
        }
    }

    fn name(&self, at: usize, length: usize) -> Name {
        let behind = at + 1 + length;
        let bytes = [self.byte(behind), self.byte(behind + 1)];
        Name {
            number: match self.fault {
                Fault::NumbersIn16Bits => self.number & 0xFFFF,
                _ => self.number,
            },
            text_at: at as u32 + u32::from(!self.is(Fault::TextAtTheLengthByte)),
            text_len: length as u32 + u32::from(self.is(Fault::LengthWithItsByte)),
            ordinal: u32::from(match self.fault {
                Fault::OrdinalBigEndian => u16::from_be_bytes(bytes),
                Fault::OrdinalOf8Bits => u16::from(bytes[0]),
                _ => u16::from_le_bytes(bytes),
            }),
        }
    }

    /// 0 outside the image, where only a fault leads.
    fn byte(&self, at: usize) -> u8 {
        self.image.get(at).copied().unwrap_or(0)
    }
}
