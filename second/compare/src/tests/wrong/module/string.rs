//! A look at the string of a module reference, with a fault to choose.

use super::fault::Fault;
use crate::stated;
use crate::tests::wrong::sound_header;
use reference::Module;

pub fn look_up(image: &[u8], number: u32, fault: Fault) -> Result<Module, u32> {
    sound_header(image)?;
    let count = stated::module_count(image);
    let mut all = (1..=count).map(|other| string(image, other, fault));
    if fault == Fault::StringsFirst && all.any(|string| string.is_none()) {
        return Err(16);
    }
    let last = count + u32::from(fault == Fault::NumberPastTheLast);
    if number == 0 || number > last {
        return Err(8);
    }
    let unsound = match fault {
        Fault::OtherStringsChecked => all.any(|string| string.is_none()),
        Fault::NameListsChecked => reference::name_by_number(image, 0) == Err(16),
        _ => false,
    };
    if unsound {
        return Err(16);
    }
    string(image, number, fault).ok_or(16)
}

/// The string of a reference.
fn string(image: &[u8], number: u32, fault: Fault) -> Option<Module> {
    let at = string_at(image, number, fault)?;
    let length = *image.get(at)?;
    if length == 0 && fault != Fault::EmptyIsSound {
        return None;
    }
    let length = match fault {
        Fault::LengthIsSigned if length >= 0x80 => return None,
        _ => usize::from(length),
    };
    let limit = match fault {
        Fault::OneByteMore => image.len() + 1,
        Fault::OneByteLess => image.len() - 1,
        Fault::TextOutside => usize::MAX,
        _ => image.len(),
    };
    (at + 1 + length <= limit).then(|| Module {
        text_at: at as u32 + u32::from(fault != Fault::TextAtTheLengthByte),
        text_len: length as u32 + u32::from(fault == Fault::LengthWithItsByte),
    })
}

fn string_at(image: &[u8], number: u32, fault: Fault) -> Option<usize> {
    let imported = stated::place(image, 0x2A)?;
    let at = stated::place(image, 0x28)? + 2 * (number as usize - 1);
    let reference = stated::word(image, at)? as usize;
    let header = stated::header_at(image)?;
    Some(match fault {
        Fault::PlaceIn16Bits => header + (imported - header + reference) % 65_536,
        Fault::StringFromTheHeader => header + reference,
        Fault::StringFromTheStart => reference,
        Fault::StringsCounted => {
            let next = |at: usize| Some(at + 1 + usize::from(*image.get(at)?));
            (1..number).try_fold(imported, |at, _| next(at))?
        }
        _ => imported + reference,
    })
}
