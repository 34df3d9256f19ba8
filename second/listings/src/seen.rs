//! Which kinds of listing were seen, each from a file and from standard input.

use crate::images::{Way, WAYS};
use std::collections::BTreeMap;
use std::fmt;
use tally::Tally;

#[derive(Clone, Copy, Debug, PartialEq, Eq, PartialOrd, Ord)]
pub enum Kind {
    TooLong,
    Refused(u32),
    /// No ordinals.
    Empty,
    NullAlone,
    EntriesAlone,
    EntriesAndNull,
}

/// All that there are. An image of refusal 2 is too long to be listed.
pub const KINDS: [Kind; 14] = [
    Kind::TooLong,
    Kind::Refused(1),
    Kind::Refused(3),
    Kind::Refused(4),
    Kind::Refused(5),
    Kind::Refused(6),
    Kind::Refused(7),
    Kind::Refused(12),
    Kind::Refused(13),
    Kind::Refused(14),
    Kind::Empty,
    Kind::NullAlone,
    Kind::EntriesAlone,
    Kind::EntriesAndNull,
];

impl Kind {
    /// The kind of a listing; nothing if it isn't one.
    pub fn of(listing: &[u8]) -> Option<Kind> {
        let text = std::str::from_utf8(listing).ok()?;
        let (first, rest) = text.split_once('\n')?;
        match first.split_once(' ')? {
            ("too", "long") => Some(Kind::TooLong),
            ("refused", number) => Some(Kind::Refused(number.parse().ok()?)),
            ("ordinals", number) => {
                let ordinals: usize = number.parse().ok()?;
                let entries = rest.lines().count().checked_sub(1)?;
                Some(Kind::accepted(ordinals, entries))
            }
            _ => None,
        }
    }

    fn accepted(ordinals: usize, entries: usize) -> Kind {
        match (ordinals, entries) {
            (0, _) => Kind::Empty,
            (_, 0) => Kind::NullAlone,
            _ if ordinals == entries => Kind::EntriesAlone,
            _ => Kind::EntriesAndNull,
        }
    }
}

impl fmt::Display for Kind {
    fn fmt(&self, f: &mut fmt::Formatter<'_>) -> fmt::Result {
        match self {
            Kind::TooLong => f.write_str("too long"),
            Kind::Refused(number) => write!(f, "refused {number}"),
            Kind::Empty => f.write_str("no ordinals"),
            Kind::NullAlone => f.write_str("null ordinals alone"),
            Kind::EntriesAlone => f.write_str("entries alone"),
            Kind::EntriesAndNull => f.write_str("entries and null ordinals"),
        }
    }
}

/// Counts of listings that the program gave as expected.
#[derive(Default)]
pub struct Seen {
    counts: BTreeMap<(Kind, Way), u32>,
}

impl Seen {
    pub fn note(&mut self, kind: Kind, way: Way) {
        *self.counts.entry((kind, way)).or_insert(0) += 1;
    }

    fn count(&self, kind: Kind, way: Way) -> u32 {
        self.counts.get(&(kind, way)).copied().unwrap_or(0)
    }

    /// Each kind must have been seen in each way, and no other kind.
    pub fn check(&self) -> Tally {
        let mut tally = Tally::default();
        for kind in KINDS {
            for way in WAYS {
                let reached = self.count(kind, way) > 0;
                if !reached {
                    println!("FAILED: never seen {way}: {kind}");
                }
                tally.count(reached);
            }
        }
        for (kind, way) in self.counts.keys() {
            if !KINDS.contains(kind) {
                println!("FAILED: seen {way}: {kind}");
                tally.count(false);
            }
        }
        tally
    }

    /// A row for each kind and a column for each way.
    pub fn table(&self) -> String {
        let mut text = format!("{:<26} {:>8} {:>15}", "seen", "file", "standard input");
        for kind in KINDS {
            let [file, input] = WAYS.map(|way| self.count(kind, way));
            text += &format!("\n{:<26} {file:>8} {input:>15}", kind.to_string());
        }
        text
    }
}
