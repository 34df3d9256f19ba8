//! The step: one record done in a buffer, without the stored bytes or any
//! other record.

use crate::bytes::word;
use crate::entry::ordinal;
use crate::fixup::{Address, Kind, Record};
use crate::header::header;

/// Does one record in a buffer of the allocation's length. The image's header
/// and tables are read for that record's target only.
pub fn step(image: &[u8], record: &[u8; 8], answer: u32, selectors: &[u16], buffer: &mut [u8]) {
    let record = Record::read(record);
    // An OS fixup, an unknown type or an unresolved target changes nothing.
    let Some(kind) = record.kind else {
        return;
    };
    if let Some(target) = resolve(image, &record, answer, selectors) {
        write_sites(&record, kind, target, buffer);
    }
}

/// The record's target. Reading: with an unsound header nothing resolves; with
/// an unsound entry table ordinals don't, while imports and other segments do.
fn resolve(image: &[u8], record: &Record, answer: u32, selectors: &[u16]) -> Option<Address> {
    let header = header(image).ok()?;
    let entry_of = |number| ordinal(image, number).ok();
    record.target(image, &header, entry_of, answer, selectors)
}

/// From the site word on. It ends after one site if additive, else when the
/// next site is FFFFh or after as many sites as the buffer has bytes.
fn write_sites(record: &Record, kind: Kind, target: Address, buffer: &mut [u8]) {
    let span = kind.span(record.additive);
    let mut site = usize::from(record.site);
    for _ in 0..buffer.len() {
        // A span past the buffer ends the step.
        if site + span > buffer.len() {
            return;
        }
        // A chained record reads the next site from the buffer, before the
        // bytes are written.
        let next = if record.additive {
            None
        } else {
            word(buffer, site as u64)
        };
        // An additive record adds to what the buffer holds.
        kind.write(record.additive, target, buffer, site);
        match next {
            None | Some(0xFFFF) => return,
            Some(next) => site = usize::from(next),
        }
    }
}
