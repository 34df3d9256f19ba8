//! Random module references and imported names.

use super::names::text;
use super::shape::Shape;
use crate::description::{Description, ImportedNames, NameList};
use crate::random::Random;

pub(super) fn imports(description: &mut Description, shape: &Shape, random: &mut Random) {
    description.imported = if shape.imported_over_resident {
        over(&description.resident)
    } else {
        imported_names(random)
    };
    let count = match random.below(1_000) {
        0..=199 => 0,
        200..=979 => random.between(1, 4),
        980..=998 => random.between(5, 120),
        _ => random.between(300, 2_000),
    };
    description.modules = (0..count)
        .map(|_| module(&description.imported, random))
        .collect();
}

fn imported_names(random: &mut Random) -> ImportedNames {
    let mut imported = ImportedNames::default();
    if random.chance(60) {
        // Linkers begin with an empty string.
        imported.push(&[]);
    }
    for _ in 0..random.below(6) {
        imported.push(&text(random));
    }
    imported
}

/// The resident list seen as imported names: strings with a word between them.
fn over(list: &NameList) -> ImportedNames {
    let mut imported = ImportedNames::default();
    for name in &list.names {
        imported.push(&name.text);
        imported
            .bytes
            .extend_from_slice(&name.ordinal.to_le_bytes());
    }
    imported
}

/// Mostly a string's place. A module's string isn't looked at by fixups, so
/// that an unsound one doesn't spoil the image.
fn module(imported: &ImportedNames, random: &mut Random) -> u16 {
    match random.below(20) {
        0 => random.edge_u16(),
        1 => random.below(imported.bytes.len() + 2) as u16,
        _ if imported.strings.is_empty() => 0,
        _ => random.pick(&imported.strings),
    }
}

/// Places of sound strings: not empty, and inside the table.
pub(super) fn sound_strings(imported: &ImportedNames, random: &mut Random) -> Vec<u16> {
    let is_sound = |place: usize| {
        let length = usize::from(imported.bytes[place]);
        length > 0 && place + 1 + length <= imported.bytes.len()
    };
    let mut sound: Vec<u16> = imported.strings.clone();
    // Any byte may serve as a length byte.
    for _ in 0..imported.bytes.len().min(3) {
        sound.push(random.below(imported.bytes.len()) as u16);
    }
    sound.retain(|place| is_sound(usize::from(*place)));
    sound
}
