//! Records of one site each, of given types.

use super::targets::Target;
use crate::inputs::module::{record, Module, ADDITIVE, FAR, LOW_BYTE, OFFSET, SELECTOR};
use crate::inputs::noise::Noise;
use std::fmt;

/// The most records of a segment.
const MOST: usize = 65_535;
const KINDS: [u8; 4] = [LOW_BYTE, SELECTOR, FAR, OFFSET];

/// The types of all records, and the order of their sites.
#[derive(Clone, Copy, PartialEq, Eq)]
pub struct Types {
    /// One type and whether it is additive, or any at random.
    kind: Option<(u8, bool)>,
    shuffled: bool,
}

impl Types {
    /// One type, with ascending sites.
    pub const fn one(kind: u8, additive: bool) -> Types {
        Types {
            kind: Some((kind, additive)),
            shuffled: false,
        }
    }

    /// Every type alone and all together, with ascending and with shuffled sites;
    /// additive ones first.
    pub fn all() -> Vec<Types> {
        let kinds = |additive| KINDS.map(|kind| Some((kind, additive)));
        let kinds = kinds(true).into_iter().chain(kinds(false)).chain([None]);
        kinds
            .flat_map(|kind| [false, true].map(|shuffled| Types { kind, shuffled }))
            .collect()
    }

    /// Those that read no chain from the stored bytes.
    pub fn additive() -> Vec<Types> {
        let mut all = Types::all();
        all.retain(|types| matches!(types.kind, Some((_, true))));
        all
    }

    /// The one type, if it is chained.
    pub fn chained(self) -> Option<u8> {
        self.kind
            .filter(|(_, additive)| !additive)
            .map(|(kind, _)| kind)
    }
}

impl fmt::Display for Types {
    fn fmt(&self, f: &mut fmt::Formatter<'_>) -> fmt::Result {
        let name = match self.kind {
            None => "all types".to_string(),
            Some((kind, true)) => format!("additive {}", name(kind)),
            Some((kind, false)) => format!("chained {}", name(kind)),
        };
        let order = if self.shuffled {
            ", shuffled sites"
        } else {
            ""
        };
        write!(f, "{name}{order}")
    }
}

fn name(kind: u8) -> &'static str {
    match kind {
        LOW_BYTE => "low bytes",
        SELECTOR => "selectors",
        FAR => "far pointers",
        _ => "offsets",
    }
}

/// The bytes that a site takes.
pub fn span(kind: u8, additive: bool) -> usize {
    match kind {
        LOW_BYTE if additive => 1,
        FAR => 4,
        _ => 2,
    }
}

/// A segment full of such records. Their targets are these, over and over.
pub fn fill(stored: usize, types: Types, targets: &[Target]) -> Module {
    let mut module = Module::new(stored);
    let mut fixups = fixups(stored, types);
    if types.shuffled {
        Noise::new(5).shuffle(&mut fixups);
    }
    let targets = targets.iter().cycle();
    for (n, ((kind, additive, site), target)) in fixups.into_iter().zip(targets).enumerate() {
        let (relation, first, last) = target.fields(n);
        let flags = if additive { ADDITIVE } else { 0 };
        if !additive {
            module.link(&[site]);
        }
        let record = record(kind, relation | flags, site as u16, first, last);
        module.records.push(record);
    }
    module
}

/// Type, whether it is additive, and site, as many as have room.
fn fixups(stored: usize, types: Types) -> Vec<(u8, bool, usize)> {
    let mut noise = Noise::new(6);
    let mut any = || (KINDS[noise.below(4)], noise.below(2) == 0);
    let mut fixups = Vec::new();
    let mut site = 0;
    while site < stored && fixups.len() < MOST {
        let (kind, additive) = types.kind.unwrap_or_else(&mut any);
        if site + span(kind, additive) <= stored {
            fixups.push((kind, additive, site));
        }
        site += span(kind, additive);
    }
    fixups
}
