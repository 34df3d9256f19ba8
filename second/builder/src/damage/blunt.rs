//! Damage that doesn't mind what a field means.

use super::Change;
use crate::assemble::Image;
use crate::random::Random;

/// Cuts at a table's end or start, or at a field's, or a byte off it.
pub(super) fn truncate(image: &Image, bytes: &mut Vec<u8>, random: &mut Random) -> Option<Change> {
    let layout = &image.layout;
    let table = random.pick(&layout.tables);
    let field = random.pick(&layout.fields);
    let near = match random.below(10) {
        0 => table.start,
        1 => field.at,
        2 => field.end(),
        3 => random.below(bytes.len() + 1),
        _ => table.end,
    };
    let to = (near + random.below(3)).saturating_sub(1);
    if to >= bytes.len() {
        return None;
    }
    bytes.truncate(to);
    Some(Change::Truncated { to })
}

/// Appends up to 64 random bytes.
pub(super) fn extend(bytes: &mut Vec<u8>, random: &mut Random) -> Change {
    let by = random.between(1, 64);
    let from = bytes.len();
    bytes.resize(from + by, 0);
    random.fill(&mut bytes[from..]);
    Change::Extended { by }
}

/// Flips a bit, mostly of a field.
pub(super) fn flip(image: &Image, bytes: &mut [u8], random: &mut Random) -> Option<Change> {
    let at = if random.chance(70) {
        let field = random.pick(&image.layout.fields);
        field.at + random.below(usize::from(field.width))
    } else {
        random.below(bytes.len())
    };
    let bit = random.below(8) as u8;
    *bytes.get_mut(at)? ^= 1 << bit;
    Some(Change::Flipped { at, bit })
}

/// Exchanges two fields of one width.
pub(super) fn swap(image: &Image, bytes: &mut [u8], random: &mut Random) -> Option<Change> {
    let fields = &image.layout.fields;
    let first = random.pick(fields);
    let second = random.pick(fields);
    if first.width != second.width || first.end().max(second.end()) > bytes.len() {
        return None;
    }
    let (one, other) = (first.read(bytes), second.read(bytes));
    if one == other {
        return None;
    }
    first.write(bytes, other);
    second.write(bytes, one);
    Some(Change::Swapped { first, second })
}

/// Puts random bytes over a table or over a part of it.
pub(super) fn scramble(image: &Image, bytes: &mut [u8], random: &mut Random) -> Option<Change> {
    let table = random.pick(&image.layout.tables);
    let end = table.end.min(bytes.len());
    if table.start >= end {
        return None;
    }
    let at = if random.chance(50) {
        table.start
    } else {
        random.between(table.start, end - 1)
    };
    let count = if random.chance(50) {
        end - at
    } else {
        random.between(1, end - at)
    };
    random.fill(&mut bytes[at..at + count]);
    Some(Change::Scrambled {
        table,
        at,
        bytes: count,
    })
}
