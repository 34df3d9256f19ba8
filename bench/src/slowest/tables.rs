//! Entry tables that are slow to search.

use super::entries::{Table, FIXED, MOVABLE, NULL};
use super::Size;
use std::iter::{once, repeat_n};

/// What sets a table apart, and the table.
pub type Named = (String, Table);

/// All of them.
pub fn entry_tables(size: Size) -> Vec<Named> {
    let singles = [FIXED, MOVABLE].map(|kind| singles(size, kind));
    let mut all = singles.concat();
    all.extend(behind_nulls(size));
    all.extend(gaps(size));
    all.extend(random(size));
    all.extend(wide(size));
    all
}

/// Bundles of one entry each.
pub fn singles(size: Size, kind: u8) -> Vec<Named> {
    let name = format!("1 {}, ", kind_name(kind));
    vec![(name, cycle(size, &[(kind, 1)]))]
}

/// These bundles over and over.
fn cycle(size: Size, bundles: &[(u8, u8)]) -> Table {
    Table::of(size.table, bundles.iter().copied().cycle())
}

fn kind_name(kind: u8) -> &'static str {
    match kind {
        MOVABLE => "movable",
        _ => "fixed",
    }
}

/// A last bundle behind null bundles of one entry each.
pub fn behind_nulls(size: Size) -> Vec<Named> {
    let last = [(FIXED, 1), (FIXED, 16), (MOVABLE, 1), (MOVABLE, 16)];
    let named = last.map(|(kind, count)| {
        let name = format!("{count} {}, ", kind_name(kind));
        (name, Table::behind_nulls(size.table, (kind, count)))
    });
    named.into()
}

/// Null bundles of one entry between bundles of one entry.
pub fn gaps(size: Size) -> Vec<Named> {
    let tables = [1, 3, 7, 8].map(|nulls| {
        [FIXED, MOVABLE].map(|kind| {
            let bundles: Vec<_> = repeat_n((NULL, 1), nulls).chain(once((kind, 1))).collect();
            let name = format!("{nulls} before each {}, ", kind_name(kind));
            (name, cycle(size, &bundles))
        })
    });
    tables.into_iter().flatten().collect()
}

/// Bundles of random kinds and counts.
pub fn random(size: Size) -> Vec<Named> {
    let named = [1, 2, 8, 255].map(|most| {
        let name = format!("of up to {most}, ");
        (name, Table::random(size.table, most))
    });
    named.into()
}

/// The longest bundles.
pub fn wide(size: Size) -> Vec<Named> {
    let count = (size.table / 7).min(255) as u8;
    let named = [FIXED, MOVABLE].map(|kind| {
        let name = format!("{}, ", kind_name(kind));
        (name, cycle(size, &[(kind, count)]))
    });
    named.into()
}
