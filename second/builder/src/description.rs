//! What a module holds and where its parts stand, as plain data.

/// Bit of a segment's flags: its stored bytes are iterated.
pub const ITERATED: u16 = 0x0008;
/// Bit of a segment's flags: a record list follows its stored bytes.
pub const HAS_RECORDS: u16 = 0x0100;
/// Bit of a fixup's flag byte: one site, and the target is added.
pub const ADDITIVE: u8 = 0x04;
/// The segment byte of a movable bundle, and of a fixup by ordinal.
pub const MOVABLE: u8 = 255;

/// A whole module. `order` decides the places, everything else the content.
#[derive(Clone, Debug)]
pub struct Description {
    /// Alignment shift: a sector is 2^shift bytes.
    pub shift: u16,
    pub segments: Vec<Segment>,
    pub entries: EntryTable,
    pub resident: NameList,
    pub nonresident: NameList,
    /// Places in the imported names, one for each module reference.
    pub modules: Vec<u16>,
    pub imported: ImportedNames,
    /// `None` makes the places at 24h and 26h equal.
    pub resources: Option<Resources>,
    /// Parts are placed one after the other in this order. A table that is
    /// missing here has place 0, a segment that is missing has sector 0.
    pub order: Vec<(Part, Put)>,
    /// Stands in the MZ header's bytes that no rule names.
    pub mz_fill: [u8; 64],
    /// Stands in the NE header's fields that aren't tested.
    pub header_fill: [u8; 64],
    /// Fills gaps, the bytes up to a sector's start, and the tail.
    pub filler: u8,
    /// Bytes after the last part.
    pub tail: u32,
}

/// A thing with a place of its own in the image.
#[derive(Clone, Copy, Debug, PartialEq, Eq)]
pub enum Part {
    Header,
    SegmentTable,
    EntryTable,
    ResidentNames,
    NonresidentNames,
    ModuleReferences,
    ImportedNames,
    Resources,
    /// Stored bytes and record list of the segment with this index, from 0.
    Segment(usize),
}

/// Where a part is put.
#[derive(Clone, Copy, Debug, PartialEq, Eq)]
pub enum Put {
    /// After all bytes so far and a gap; a segment goes on to the next sector.
    After { gap: u32 },
    /// Here from the file's start, over whatever stands there.
    At { place: u32 },
    /// Over a part that is placed already. Nothing is written: the bytes that
    /// stand there must suit both.
    Over { part: Part, offset: u32 },
    /// The header's place field holds this number. Nothing is written.
    Raw { field: u32 },
}

#[derive(Clone, Debug)]
pub struct Segment {
    pub stored: Stored,
    pub flags: u16,
    /// As written: 0 is 65,536.
    pub allocation: u16,
    /// Written when the flags have [`HAS_RECORDS`].
    pub fixups: Vec<Fixup>,
}

#[derive(Clone, Debug)]
pub enum Stored {
    /// Sector 0: no stored bytes, whatever the length word says.
    None { length: u16 },
    /// 1 to 65,536 bytes; the length word of 65,536 is 0.
    Bytes(Vec<u8>),
    /// All that stands from this sector on when the segment is placed.
    Window { sector: u16 },
}

#[derive(Clone, Copy, Debug, PartialEq, Eq)]
pub struct Fixup {
    /// Type byte; its low four bits count.
    pub kind: u8,
    /// Flag byte; its low three bits count.
    pub flags: u8,
    pub site: u16,
    pub target: Target,
}

/// The four target bytes. The flag byte's low bits must agree with it.
#[derive(Clone, Copy, Debug, PartialEq, Eq)]
pub enum Target {
    Segment {
        number: u8,
        reserved: u8,
        offset: u16,
    },
    Ordinal {
        reserved: u8,
        ordinal: u16,
    },
    ImportOrdinal {
        module: u16,
        ordinal: u16,
    },
    ImportName {
        module: u16,
        string: u16,
    },
    Os {
        kind: u16,
        reserved: u16,
    },
    Raw {
        first: u16,
        last: u16,
    },
}

impl Fixup {
    /// Bytes of each of its spans (document 01, "Span"); `None` where it has no
    /// site, as an OS fixup or one of unknown type.
    pub fn span(&self) -> Option<u8> {
        match (self.flags & 3, self.kind & 15) {
            (3, _) => None,
            (_, 0) if self.is_additive() => Some(1),
            (_, 0 | 2 | 5) => Some(2),
            (_, 3) => Some(4),
            _ => None,
        }
    }

    pub fn is_additive(&self) -> bool {
        self.flags & ADDITIVE != 0
    }
}

#[derive(Clone, Debug, Default)]
pub struct EntryTable {
    pub bundles: Vec<Bundle>,
    /// Whether the end byte is written.
    pub end: bool,
    /// Bytes after the end byte, inside the table's size.
    pub trailing: Vec<u8>,
    /// The size in the header, where it isn't that of the bytes.
    pub size: Option<u16>,
}

#[derive(Clone, Debug)]
pub enum Bundle {
    Null {
        count: u8,
    },
    Fixed {
        segment: u8,
        entries: Vec<FixedEntry>,
    },
    Movable {
        entries: Vec<MovableEntry>,
    },
}

#[derive(Clone, Copy, Debug)]
pub struct FixedEntry {
    pub flag: u8,
    pub offset: u16,
}

#[derive(Clone, Copy, Debug)]
pub struct MovableEntry {
    pub flag: u8,
    pub segment: u8,
    pub offset: u16,
}

impl Bundle {
    /// Ordinals that it uses up.
    pub fn count(&self) -> usize {
        match self {
            Bundle::Null { count } => usize::from(*count),
            Bundle::Fixed { entries, .. } => entries.len(),
            Bundle::Movable { entries } => entries.len(),
        }
    }
}

impl EntryTable {
    /// Ordinals in all, null ones included.
    pub fn ordinals(&self) -> usize {
        self.bundles.iter().map(Bundle::count).sum()
    }

    /// The ordinals that aren't null.
    pub fn used_ordinals(&self) -> Vec<u16> {
        let mut used = Vec::new();
        let mut next = 1;
        for bundle in &self.bundles {
            let after = next + bundle.count();
            if !matches!(bundle, Bundle::Null { .. }) {
                used.extend((next..after).filter_map(|n| u16::try_from(n).ok()));
            }
            next = after;
        }
        used
    }
}

/// A resident or nonresident list. With no name and no end byte it is empty,
/// which only the nonresident one, having a size, may be.
#[derive(Clone, Debug, Default)]
pub struct NameList {
    pub names: Vec<Name>,
    /// Whether the end byte is written.
    pub end: bool,
    /// Bytes after the end byte, inside the nonresident size.
    pub trailing: Vec<u8>,
    /// The nonresident size in the header, where it isn't that of the bytes.
    pub size: Option<u16>,
}

#[derive(Clone, Debug, PartialEq, Eq)]
pub struct Name {
    /// 1 to 255 bytes.
    pub text: Vec<u8>,
    pub ordinal: u16,
}

/// The imported names, which have neither a size nor an end.
#[derive(Clone, Debug, Default)]
pub struct ImportedNames {
    pub bytes: Vec<u8>,
    /// Places of length bytes, from the table's start.
    pub strings: Vec<u16>,
}

impl ImportedNames {
    /// Adds a string of at most 255 bytes and gives its place.
    pub fn push(&mut self, text: &[u8]) -> u16 {
        let place = self.bytes.len() as u16;
        self.bytes.push(text.len() as u8);
        self.bytes.extend_from_slice(text);
        self.strings.push(place);
        place
    }
}

#[derive(Clone, Debug)]
pub struct Resources {
    pub shift: u16,
    pub blocks: Vec<ResourceBlock>,
    /// Whether the type 0 that ends the table is written.
    pub end: bool,
}

#[derive(Clone, Debug)]
pub struct ResourceBlock {
    pub kind: u16,
    pub reserved: u32,
    pub resources: Vec<Resource>,
}

#[derive(Clone, Copy, Debug)]
pub struct Resource {
    /// Shifted by the table's shift, as is the length.
    pub offset: u16,
    pub length: u16,
    pub flags: u16,
    pub id: u16,
    pub reserved: u32,
}

/// The tables in the order in which linkers write them.
pub const TABLES: [Part; 7] = [
    Part::SegmentTable,
    Part::Resources,
    Part::ResidentNames,
    Part::ModuleReferences,
    Part::ImportedNames,
    Part::EntryTable,
    Part::NonresidentNames,
];

impl Description {
    /// A module with nothing in it but an empty resident list; `order` is
    /// still empty.
    pub fn empty() -> Self {
        Description {
            shift: 0,
            segments: Vec::new(),
            entries: EntryTable::default(),
            resident: NameList {
                end: true,
                ..NameList::default()
            },
            nonresident: NameList::default(),
            modules: Vec::new(),
            imported: ImportedNames::default(),
            resources: None,
            order: Vec::new(),
            mz_fill: [0; 64],
            header_fill: [0; 64],
            filler: 0,
            tail: 0,
        }
    }

    /// Puts the header, the tables and the segments one after the other.
    pub fn in_usual_order(mut self) -> Self {
        let segments = (0..self.segments.len()).map(Part::Segment);
        self.order = std::iter::once(Part::Header)
            .chain(TABLES)
            .chain(segments)
            .map(|part| (part, Put::After { gap: 0 }))
            .collect();
        self
    }
}
