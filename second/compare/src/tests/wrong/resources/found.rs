//! Which resource is found, and whether its data is inside, with a fault to
//! choose.

use super::fault::Fault;
use crate::calls::Words;
use reference::Resource;

/// What is asked for.
#[derive(Clone, Copy)]
pub enum Asked {
    Number(u32),
    Words(Words),
}

impl Asked {
    /// The refusal where the table is sound.
    pub fn not_there(self) -> u32 {
        match self {
            Asked::Number(_) => 8,
            Asked::Words(_) => 19,
        }
    }

    /// Whether no table at all has it.
    pub fn is_never_there(self) -> bool {
        match self {
            Asked::Number(number) => number == 0,
            Asked::Words((type_word, id)) => !(asks(type_word) && asks(id)),
        }
    }
}

/// Whether a resource can be found by this word.
fn asks(word: u32) -> bool {
    (0x8000..=0xFFFF).contains(&word)
}

pub struct Finder {
    asked: Asked,
    fault: Fault,
    image_length: usize,
    type_word: u32,
    /// Of the last resource.
    number: u32,
    /// Whether a block of the type asked for is behind.
    type_passed: bool,
    found: Option<Resource>,
    /// Whether any data is outside.
    any_outside: bool,
}

impl Finder {
    pub fn new(asked: Asked, fault: Fault, image_length: usize) -> Self {
        Finder {
            asked,
            fault,
            image_length,
            type_word: 0,
            number: 0,
            type_passed: false,
            found: None,
            any_outside: false,
        }
    }

    fn is(&self, fault: Fault) -> bool {
        self.fault == fault
    }

    pub fn has_found(&self) -> bool {
        self.found.is_some()
    }

    pub fn block(&mut self, type_word: u32, count: usize) {
        self.type_passed |=
            matches!(self.asked, Asked::Words((asked, _)) if asked == self.type_word);
        self.type_word = type_word;
        if self.is(Fault::NumbersByType) {
            self.number = 0;
        }
        if self.is(Fault::EmptyBlocksCounted) && count == 0 {
            self.number += 1;
        }
    }

    /// A resource of the last block.
    pub fn resource(&mut self, resource: Resource) {
        let resource = Resource {
            type_: self.type_word,
            ..resource
        };
        let counted = asks(resource.type_) && asks(resource.id);
        if counted || !self.is(Fault::HighBitsCounted) {
            self.number += 1;
        }
        let outside = !self.is_inside(&resource);
        self.any_outside |= outside;
        if !self.matches(&resource) {
            return;
        }
        let better = match (self.fault, &self.found) {
            (_, None) | (Fault::LastMatch, _) => true,
            (Fault::InsideFirst, Some(found)) => !self.is_inside(found) && !outside,
            _ => false,
        };
        if better {
            self.found = Some(resource);
        }
    }

    fn matches(&self, resource: &Resource) -> bool {
        match self.asked {
            Asked::Number(asked) if self.is(Fault::NumbersIn16Bits) => {
                self.number & 0xFFFF == asked
            }
            Asked::Number(asked) => self.number == asked,
            Asked::Words(asked) => self.has_words(resource, asked),
        }
    }

    fn has_words(&self, resource: &Resource, (type_word, id): Words) -> bool {
        let (type_word, id) = match self.fault {
            Fault::LowWords => (type_word & 0xFFFF, id & 0xFFFF),
            Fault::HighBitSet => (type_word | 0x8000, id | 0x8000),
            _ => (type_word, id),
        };
        let asked = match self.fault {
            Fault::HighBitNotNeeded => true,
            Fault::HighBitOfTheTypeAlone => asks(type_word),
            Fault::HighBitOfTheIdAlone => asks(id),
            _ => asks(type_word) && asks(id),
        };
        let same = match self.fault {
            Fault::IdAlone => resource.id == id,
            Fault::TypeAlone => resource.type_ == type_word,
            _ => resource.type_ == type_word && resource.id == id,
        };
        asked && same && !(self.is(Fault::FirstOfItsType) && self.type_passed)
    }

    fn is_inside(&self, resource: &Resource) -> bool {
        let (start, length) = (u64::from(resource.data_at), u64::from(resource.data_len));
        let image = self.image_length as u64;
        match self.fault {
            Fault::PlacesIn16Bits => (start & 0xFFFF) + (length & 0xFFFF) <= image,
            Fault::SumIn24Bits => (start + length) & 0xFF_FFFF <= image,
            Fault::EndAtTheEnd => start + length < image,
            Fault::EmptyAnywhere if length == 0 => true,
            Fault::EmptyRefused if length == 0 => false,
            _ => start + length <= image,
        }
    }

    pub fn answer(&self) -> Result<Resource, u32> {
        if self.is(Fault::AllData) && self.any_outside {
            return Err(20);
        }
        match self.found {
            None => Err(self.asked.not_there()),
            Some(found) if self.is_inside(&found) => Ok(found),
            Some(_) => Err(20),
        }
    }
}
