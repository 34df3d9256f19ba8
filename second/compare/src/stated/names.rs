//! The strings of both name lists.

use super::{nonresident_place, nonresident_size, table};

/// A string that is there with its length byte and text.
#[derive(Clone, Copy)]
pub struct Name<'a> {
    pub text: &'a [u8],
    /// Whether it is its list's first.
    pub first: bool,
    pub resident: bool,
}

/// Those of the resident list, then those of the other.
pub fn names(image: &[u8]) -> Vec<Name<'_>> {
    let mut names = Vec::new();
    add(table(image, 0x26).unwrap_or_default(), true, &mut names);
    add(nonresident(image).unwrap_or_default(), false, &mut names);
    names
}

/// The nonresident names, or the part of them that lies in the image.
fn nonresident(image: &[u8]) -> Option<&[u8]> {
    let behind = image.get(nonresident_place(image)?..)?;
    let size = nonresident_size(image)?;
    Some(&behind[..size.min(behind.len())])
}

fn add<'a>(list: &'a [u8], resident: bool, names: &mut Vec<Name<'a>>) {
    let mut rest = list;
    let mut first = true;
    while let [length @ 1..=255, behind @ ..] = rest {
        let Some((text, behind)) = behind.split_at_checked(usize::from(*length)) else {
            return;
        };
        names.push(Name {
            text,
            first,
            resident,
        });
        first = false;
        rest = behind.get(2..).unwrap_or_default();
    }
}
