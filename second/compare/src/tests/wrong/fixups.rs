//! Fixups with a fault to choose, for wrong preparing and wrong steps.

mod fault;
mod target;

pub use fault::Fault;
pub use target::Target;

/// A record's fields.
#[derive(Clone, Copy)]
pub struct Fixup {
    pub kind: u8,
    /// Flag bits 0 and 1.
    pub relation: u8,
    pub additive: bool,
    pub site: usize,
    pub first: u16,
    pub last: u16,
    pub fault: Fault,
}

impl Fixup {
    pub fn of(record: &[u8; 8], fault: Fault) -> Self {
        let [kind, flags, s, t, f, g, l, m] = *record;
        let kind = match fault {
            Fault::WholeTypeByte => kind,
            _ => kind & 15,
        };
        Fixup {
            kind,
            relation: match fault {
                Fault::OsIsInternal if flags & 3 == 3 => 0,
                Fault::AdditiveOs if flags & 7 == 7 => 0,
                _ => flags & 3,
            },
            additive: match fault {
                Fault::WholeFlagByte => flags == 4 || flags == 5 || flags == 6,
                _ => flags & 4 != 0,
            },
            site: usize::from(u16::from_le_bytes([s, t])),
            first: u16::from_le_bytes([f, g]),
            last: u16::from_le_bytes([l, m]),
            fault,
        }
    }

    pub fn is_known(&self) -> bool {
        match self.fault {
            Fault::Type1Known => matches!(self.kind, 0 | 1 | 2 | 3 | 5),
            Fault::OsTypeNotTested if self.relation == 3 => true,
            _ => matches!(self.kind, 0 | 2 | 3 | 5),
        }
    }

    pub fn span(&self) -> usize {
        match (self.kind, self.additive) {
            (3, _) => 4,
            (0, true) if self.fault != Fault::AdditiveLowSpanOf2 => 1,
            (0, false) if self.fault == Fault::ChainedLowSpanOf1 => 1,
            _ => 2,
        }
    }

    /// Puts the target at a site whose span lies in the bytes, nearly.
    pub fn write(&self, bytes: &mut [u8], site: usize, target: Target) {
        match self.kind {
            0 => self.low_byte(bytes, site, target.offset),
            2 => self.selector(bytes, site, target.selector),
            3 if self.fault == Fault::SelectorFirst => {
                self.offset(bytes, site + 2, target.offset);
                self.selector(bytes, site, target.selector);
            }
            3 => {
                let carried = self.offset(bytes, site, target.offset);
                let carry = u16::from(carried && self.fault == Fault::CarryIntoSelector);
                let selector = target.selector.wrapping_add(carry);
                self.selector(bytes, site + 2, selector);
            }
            _ => {
                self.offset(bytes, site, target.offset);
            }
        }
    }

    fn low_byte(&self, bytes: &mut [u8], site: usize, offset: u16) {
        if self.fault == Fault::LowByteOf2 {
            self.offset(bytes, site, offset);
        } else if let Some(byte) = bytes.get_mut(site) {
            let held = if self.adds() { *byte } else { 0 };
            *byte = held.wrapping_add(offset as u8);
        }
    }

    /// Whether it carried.
    fn offset(&self, bytes: &mut [u8], site: usize, offset: u16) -> bool {
        let held = if self.adds() { word(bytes, site) } else { 0 };
        put(bytes, site, held.wrapping_add(offset));
        held.checked_add(offset).is_none()
    }

    fn selector(&self, bytes: &mut [u8], site: usize, selector: u16) {
        let held = match self.fault {
            Fault::SelectorAdded if self.additive => word(bytes, site),
            _ => 0,
        };
        put(bytes, site, held.wrapping_add(selector));
    }

    fn adds(&self) -> bool {
        match self.fault {
            Fault::AdditiveReplaces => false,
            Fault::ChainedAdds => true,
            _ => self.additive,
        }
    }
}

/// A byte past the end reads as 0.
pub fn word(bytes: &[u8], at: usize) -> u16 {
    let byte = |at: usize| bytes.get(at).copied().unwrap_or(0);
    u16::from_le_bytes([byte(at), byte(at + 1)])
}

/// A byte past the end isn't put.
fn put(bytes: &mut [u8], at: usize, word: u16) {
    for (byte, value) in bytes.iter_mut().skip(at).zip(word.to_le_bytes()) {
        *byte = value;
    }
}
