//! Turns a description into an image and its layout (document 01, "Header rules").

mod chains;
mod header;
mod segments;
mod tables;

use crate::description::{Description, Part, Put};
use crate::layout::{Layout, SegmentLayout, TableKind};
use crate::writer::Writer;

/// The longest image that document 01 admits.
pub const LONGEST_IMAGE: usize = 16_777_216;
/// The MZ header's bytes, and as many for the NE header.
pub(crate) const HEADER: usize = 64;

/// A built image and the map of it.
#[derive(Clone, Debug, PartialEq, Eq)]
pub struct Image {
    pub bytes: Vec<u8>,
    pub layout: Layout,
}

/// Why a description can't be written down.
#[derive(Clone, Copy, Debug, PartialEq, Eq)]
pub enum Unfit {
    /// The order doesn't put the NE header, or puts it in no plain way.
    NoHeader,
    /// The part's place doesn't fit its field.
    Place(Part),
    /// A part is put over one that isn't placed yet.
    NotPlaced(Part),
    /// A count or length of the part doesn't fit its field.
    Length(Part),
    /// The image passes 16,777,216 bytes.
    TooLong,
}

/// Where a part ended up.
#[derive(Clone, Copy, Debug)]
enum Place {
    /// From the file's start, written there.
    Written(usize),
    /// From the file's start, on bytes of another part.
    Borrowed(usize),
    /// The field's own number.
    Raw(u32),
}

struct Assembler<'a> {
    description: &'a Description,
    writer: Writer,
    /// By [`slot`]; segments have theirs in the layout.
    places: [Option<Place>; 8],
}

/// Builds the image. All of the layout's fields lie inside the bytes.
pub fn assemble(description: &Description) -> Result<Image, Unfit> {
    let mut assembler = Assembler {
        description,
        writer: Writer::new(description.filler),
        places: [None; 8],
    };
    assembler.start();
    for &(part, put) in &description.order {
        match part {
            Part::Segment(index) => assembler.put_segment(index, put)?,
            _ => assembler.put_table(part, put)?,
        }
        if assembler.writer.end() > LONGEST_IMAGE {
            return Err(Unfit::TooLong);
        }
    }
    assembler.write_segment_table();
    assembler.write_header()?;
    assembler.finish()
}

impl Assembler<'_> {
    fn start(&mut self) {
        self.writer.raw(&self.description.mz_fill);
        self.writer.table(TableKind::MzHeader, 0);
        let none = SegmentLayout::default();
        self.writer.layout.segments = vec![none; self.description.segments.len()];
    }

    fn put_table(&mut self, part: Part, put: Put) -> Result<(), Unfit> {
        let place = self.resolve(put)?;
        self.places[slot(part)] = Some(place);
        match place {
            Place::Written(at) => self.writer.seek(at, false),
            Place::Borrowed(at) => self.writer.seek(at, true),
            Place::Raw(_) => return Ok(()),
        }
        self.write_table(part)
    }

    fn resolve(&self, put: Put) -> Result<Place, Unfit> {
        Ok(match put {
            Put::After { gap } => Place::Written(self.writer.end() + gap as usize),
            Put::At { place } => Place::Written(place as usize),
            Put::Over { part, offset } => {
                let start = self.start_of(part).ok_or(Unfit::NotPlaced(part))?;
                Place::Borrowed(start + offset as usize)
            }
            Put::Raw { field } => Place::Raw(field),
        })
    }

    /// The place of a part that is placed already.
    fn start_of(&self, part: Part) -> Option<usize> {
        if let Part::Segment(index) = part {
            let layout = self.writer.layout.segments.get(index)?;
            return (layout.sector != 0).then_some(layout.stored.start);
        }
        match self.places[slot(part)] {
            Some(Place::Written(at) | Place::Borrowed(at)) => Some(at),
            _ => None,
        }
    }

    fn finish(mut self) -> Result<Image, Unfit> {
        let length = self.writer.end() + self.description.tail as usize;
        if length > LONGEST_IMAGE {
            return Err(Unfit::TooLong);
        }
        self.writer.grow_to(length);
        chains::note_sites(&mut self.writer, self.description);
        let Writer {
            bytes, mut layout, ..
        } = self.writer;
        // A part put over others may have been described past the end.
        layout.fields.retain(|field| field.end() <= length);
        layout.tables.retain(|table| table.end <= length);
        Ok(Image { bytes, layout })
    }
}

/// The index of a part that isn't a segment.
fn slot(part: Part) -> usize {
    match part {
        Part::SegmentTable => 1,
        Part::EntryTable => 2,
        Part::ResidentNames => 3,
        Part::NonresidentNames => 4,
        Part::ModuleReferences => 5,
        Part::ImportedNames => 6,
        Part::Resources => 7,
        Part::Header | Part::Segment(_) => 0,
    }
}

/// A length as the 16-bit field that holds it.
fn word_of(length: usize, part: Part) -> Result<u16, Unfit> {
    u16::try_from(length).map_err(|_| Unfit::Length(part))
}

/// A length as the byte that holds it.
fn byte_of(length: usize, part: Part) -> Result<u8, Unfit> {
    u8::try_from(length).map_err(|_| Unfit::Length(part))
}
