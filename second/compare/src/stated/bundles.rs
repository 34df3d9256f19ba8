//! The bundles of the entry table.

use super::entry_table;

/// A bundle of the entry table.
pub struct Bundle {
    /// Its first ordinal.
    pub first: u32,
    /// At least 1.
    pub count: u8,
    pub segment: u8,
}

impl Bundle {
    pub fn last(&self) -> u32 {
        self.first + u32::from(self.count) - 1
    }

    fn bytes(&self) -> usize {
        let each = match self.segment {
            0 => 0,
            255 => 6,
            _ => 3,
        };
        each * usize::from(self.count)
    }
}

/// The bundles whose count and segment byte are there, up to the end byte.
pub fn bundles(image: &[u8]) -> Vec<Bundle> {
    let mut bundles = Vec::new();
    let mut first = 1;
    let mut rest = entry_table(image).unwrap_or_default();
    while let [count @ 1..=255, segment, behind @ ..] = rest {
        let bundle = Bundle {
            first,
            count: *count,
            segment: *segment,
        };
        first += u32::from(bundle.count);
        rest = behind.get(bundle.bytes()..).unwrap_or_default();
        bundles.push(bundle);
    }
    bundles
}
