//! Damage that goes through an image's fields and ends without chance.

use crate::assemble::Image;
use crate::damage::{set, Aim, Change, Damaged};
use crate::layout::Field;

/// Every field with each of a fixed set of numbers: one less and one more, 0, 1,
/// 2, the greatest and the one under it, the sign bit and the one under it, and
/// the image's end as a place.
pub fn every_field_damage(image: &Image) -> impl Iterator<Item = Damaged> + '_ {
    image.layout.fields.iter().flat_map(move |field| {
        let values = values_for(*field, image);
        (0..values.len())
            .filter(move |index| !values[..*index].contains(&values[*index]))
            .filter_map(move |index| with_value(image, *field, values[index]))
    })
}

fn values_for(field: Field, image: &Image) -> [u32; 12] {
    let held = field.read(&image.bytes);
    let greatest = field.greatest();
    let sign = greatest - greatest / 2;
    // Places count from the NE header; it may lie past a cut image.
    let end = image.bytes.len().wrapping_sub(image.layout.header_at) as u32;
    [
        held.wrapping_sub(1),
        held.wrapping_add(1),
        0,
        1,
        2,
        greatest,
        greatest - 1,
        sign,
        sign - 1,
        end,
        end.wrapping_sub(1),
        end.wrapping_add(1),
    ]
    .map(|value| value & greatest)
}

fn with_value(image: &Image, field: Field, value: u32) -> Option<Damaged> {
    if field.read(&image.bytes) == value {
        return None;
    }
    let mut bytes = image.bytes.clone();
    let change = set(&mut bytes, Aim::Systematic, field, value)?;
    Some(Damaged {
        bytes,
        changes: vec![change],
    })
}

/// The image cut at the start and end of every table and field, and one byte to
/// either side of these.
pub fn every_truncation(image: &Image) -> impl Iterator<Item = Damaged> + '_ {
    let layout = &image.layout;
    let tables = layout
        .tables
        .iter()
        .flat_map(|table| [table.start, table.end]);
    let fields = layout
        .fields
        .iter()
        .flat_map(|field| [field.at, field.end()]);
    let mut lengths: Vec<usize> = [0, 2, 64, image.bytes.len()]
        .into_iter()
        .chain(tables)
        .chain(fields)
        .flat_map(|near| [near.saturating_sub(1), near, near + 1])
        .filter(|length| *length < image.bytes.len())
        .collect();
    lengths.sort_unstable();
    lengths.dedup();
    lengths.into_iter().map(|length| cut(image, length))
}

/// The image cut at every length, from 0 on.
pub fn every_length(image: &Image) -> impl Iterator<Item = Damaged> + '_ {
    (0..image.bytes.len()).map(|length| cut(image, length))
}

fn cut(image: &Image, to: usize) -> Damaged {
    Damaged {
        bytes: image.bytes[..to].to_vec(),
        changes: vec![Change::Truncated { to }],
    }
}
