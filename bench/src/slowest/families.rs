//! The families.

use super::entries::{Order, Table, FIXED, MOVABLE};
use super::records::{fill, Types};
use super::tables::{self, Named};
use super::targets::Target;
use super::{chains, Family, Modules, Size, Variant};
use crate::inputs::module::Module;
use crate::inputs::noise::Noise;

/// All of them.
pub fn families(size: Size) -> Vec<Family> {
    let few = Size { stored: 4, ..size };
    let mut all = Vec::from(ordinals(size));
    let others = [
        (
            "a segment of 4 bytes",
            by_ordinal(few, tables::entry_tables(size), false),
        ),
        (
            "imports by ordinal",
            vec![all_alike(size, Target::ImportByOrdinal)],
        ),
        ("imports by name", by_name(size)),
        (
            "OS fixups, by direct records",
            vec![all_alike(size, Target::Os)],
        ),
        ("all kinds of targets", vec![mixed(size)]),
        ("many segments", vec![many_segments(size)]),
    ];
    all.extend(others.map(|(name, variants)| family(name, variants)));
    all.push(in_stored(size));
    all.push(chains::family(size));
    all
}

fn ordinals(size: Size) -> [Family; 6] {
    let families = [
        (
            "ordinals behind null bundles of 1",
            tables::behind_nulls(size),
        ),
        (
            "ordinals in fixed bundles of 1",
            tables::singles(size, FIXED),
        ),
        (
            "ordinals in movable bundles of 1",
            tables::singles(size, MOVABLE),
        ),
        ("ordinals with null bundles between", tables::gaps(size)),
        ("ordinals in random bundles", tables::random(size)),
        ("ordinals in bundles of 255", tables::wide(size)),
    ];
    families.map(|(name, tables)| family(name, by_ordinal(size, tables, false)))
}

/// A chain would need words that the table has otherwise.
fn in_stored(size: Size) -> Family {
    Family {
        name: "entry table in the stored bytes",
        variants: by_ordinal(size, tables::gaps(size), true),
        types: Types::additive(),
    }
}

/// With records of any types.
fn family(name: &'static str, variants: Vec<Variant>) -> Family {
    Family {
        name,
        variants,
        types: Types::all(),
    }
}

/// Records with these targets over and over, in a module with these tables.
fn variant(
    name: impl Into<String>,
    size: Size,
    targets: Vec<Target>,
    add_tables: impl Fn(&mut Module) + 'static,
) -> Variant {
    Variant::new(name, move |types| {
        let [slow, direct] = [&targets[..], &[Target::Direct]].map(|targets| {
            let mut module = fill(size.stored, types, targets);
            add_tables(&mut module);
            module
        });
        let sites = match targets[..] {
            [Target::Os] => 0,
            _ => slow.records.len(),
        };
        Modules {
            slow,
            direct,
            sites,
        }
    })
}

/// The ordinals of each table in every order in which they can be asked for.
fn by_ordinal(size: Size, tables: Vec<Named>, in_stored: bool) -> Vec<Variant> {
    let mut variants = Vec::new();
    for (name, table) in tables {
        let mut orders: Vec<_> = Order::ALL
            .map(|order| (order, order.of(&table.ordinals)))
            .into();
        orders.retain(|(_, ordinals)| !ordinals.is_empty());
        orders.dedup_by(|(_, one), (_, other)| one == other);
        variants.extend(orders.into_iter().map(|(order, ordinals)| {
            let targets = ordinals.into_iter().map(Target::Ordinal).collect();
            let bytes = table.bytes.clone();
            variant(format!("{name}{order}"), size, targets, move |module| {
                module.entries.clone_from(&bytes);
                module.entries_in_stored = in_stored;
            })
        }));
    }
    variants
}

/// Each place of the imported names has a string, of 1 byte or of 255.
fn by_name(size: Size) -> Vec<Variant> {
    let places: Vec<u16> = (0..size.table as u16).collect();
    let orders = [Order::Ascending, Order::Random, Order::Last];
    let variants = [1, 255].map(|length| {
        orders.map(|order| {
            let targets = order.of(&places).into_iter().map(Target::ImportByName);
            let name = format!("strings of {length}, {order}");
            variant(name, size, targets.collect(), move |module| {
                module.imported = vec![length; size.table];
            })
        })
    });
    variants.into_iter().flatten().collect()
}

fn all_alike(size: Size, target: Target) -> Variant {
    variant("all alike", size, vec![target], |_| {})
}

fn mixed(size: Size) -> Variant {
    let table = Table::random(size.table / 2, 8);
    let imported = size.table / 4;
    let mut noise = Noise::new(10);
    let targets = (0..size.stored).map(|_| match noise.below(4) {
        0 => Target::Direct,
        1 => Target::Ordinal(table.ordinals[noise.below(table.ordinals.len())]),
        2 => Target::ImportByOrdinal,
        _ => Target::ImportByName(noise.below(imported) as u16),
    });
    let targets = targets.collect();
    variant("at random", size, targets, move |module| {
        module.entries.clone_from(&table.bytes);
        module.imported = vec![1; imported];
    })
}

fn many_segments(size: Size) -> Variant {
    let name = size.segments.to_string();
    variant(name, size, vec![Target::Direct], move |module| {
        module.segments = size.segments;
    })
}
