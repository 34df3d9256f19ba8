//! What a record points at.

/// The target of a record.
#[derive(Clone, Copy, PartialEq, Eq)]
pub enum Target {
    /// A segment and an offset.
    Direct,
    /// An ordinal of the entry table.
    Ordinal(u16),
    /// An ordinal of another module.
    ImportByOrdinal,
    /// The string at this place of the imported names.
    ImportByName(u16),
    /// Nothing: it is skipped, and has no site.
    Os,
}

impl Target {
    /// The low bits of the flags and the two words of the record of a number.
    pub fn fields(self, number: usize) -> (u8, u16, u16) {
        let word = number as u16;
        match self {
            Target::Direct => (0, 1 + word % 4, word),
            Target::Ordinal(ordinal) => (0, 255, ordinal),
            Target::ImportByOrdinal => (1, 1, word),
            Target::ImportByName(place) => (2, 1, place),
            Target::Os => (3, 1, 0),
        }
    }
}
