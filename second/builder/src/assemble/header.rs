//! The fields of both headers (document 01, "Header rules").

use super::{slot, word_of, Assembler, Place, Unfit, HEADER};
use crate::description::Part;
use crate::layout::FieldKind;

impl Assembler<'_> {
    /// Written last, when all places are known.
    pub(super) fn write_header(&mut self) -> Result<(), Unfit> {
        let Some(Place::Written(header)) = self.places[slot(Part::Header)] else {
            return Err(Unfit::NoHeader);
        };
        self.writer.layout.header_at = header;
        let place = u32::try_from(header).map_err(|_| Unfit::Place(Part::Header))?;
        self.writer.seek(0, false);
        let signature = u16::from_le_bytes(*b"MZ");
        self.writer.word(FieldKind::MzSignature, signature);
        self.writer.seek(0x3C, false);
        self.writer.dword(FieldKind::HeaderPlace, place);
        self.writer.seek(header, false);
        let signature = u16::from_le_bytes(*b"NE");
        self.writer.word(FieldKind::NeSignature, signature);
        self.write_sizes(header)?;
        self.write_places(header)?;
        self.note_untested(header);
        Ok(())
    }

    fn write_sizes(&mut self, header: usize) -> Result<(), Unfit> {
        let description = self.description;
        let entries = match description.entries.size {
            Some(size) => size,
            None => word_of(self.size_of(Part::EntryTable), Part::EntryTable)?,
        };
        let nonresident = match description.nonresident.size {
            Some(size) => size,
            None => word_of(self.size_of(Part::NonresidentNames), Part::NonresidentNames)?,
        };
        let segments = word_of(description.segments.len(), Part::SegmentTable)?;
        let modules = word_of(description.modules.len(), Part::ModuleReferences)?;
        for (offset, what, value) in [
            (0x06, FieldKind::EntryTableSize, entries),
            (0x1C, FieldKind::SegmentCount, segments),
            (0x1E, FieldKind::ModuleCount, modules),
            (0x20, FieldKind::NonresidentSize, nonresident),
            (0x32, FieldKind::AlignmentShift, description.shift),
        ] {
            self.writer.seek(header + offset, false);
            self.writer.word(what, value);
        }
        Ok(())
    }

    fn write_places(&mut self, header: usize) -> Result<(), Unfit> {
        // With equal places at 24h and 26h there are no resources (house).
        let resources = match self.description.resources {
            Some(_) => Part::Resources,
            None => Part::ResidentNames,
        };
        for (offset, what, part) in [
            (0x04, FieldKind::EntryTablePlace, Part::EntryTable),
            (0x22, FieldKind::SegmentTablePlace, Part::SegmentTable),
            (0x24, FieldKind::ResourceTablePlace, resources),
            (0x26, FieldKind::ResidentPlace, Part::ResidentNames),
            (0x28, FieldKind::ModulesPlace, Part::ModuleReferences),
            (0x2A, FieldKind::ImportedPlace, Part::ImportedNames),
        ] {
            let value = self.place_word(part, header)?;
            self.writer.seek(header + offset, false);
            self.writer.word(what, value);
        }
        let nonresident = match self.places[slot(Part::NonresidentNames)] {
            None => 0,
            Some(Place::Raw(field)) => field,
            Some(Place::Written(at) | Place::Borrowed(at)) => {
                u32::try_from(at).map_err(|_| Unfit::Place(Part::NonresidentNames))?
            }
        };
        // The one place that counts from the file's start.
        self.writer.seek(header + 0x2C, false);
        self.writer.dword(FieldKind::NonresidentPlace, nonresident);
        Ok(())
    }

    /// A table's place, counted from the NE header.
    fn place_word(&self, part: Part, header: usize) -> Result<u16, Unfit> {
        let unfit = Unfit::Place(part);
        match self.places[slot(part)] {
            None => Ok(0),
            Some(Place::Raw(field)) => u16::try_from(field).map_err(|_| unfit),
            Some(Place::Written(at) | Place::Borrowed(at)) => {
                let from_header = at.checked_sub(header).ok_or(unfit)?;
                u16::try_from(from_header).map_err(|_| unfit)
            }
        }
    }

    /// The counts at 30h and 34h hold filling bytes, since no call tests them.
    fn note_untested(&mut self, header: usize) {
        self.writer.seek(header + 0x30, true);
        self.writer.note(FieldKind::MovableCount, 2);
        self.writer.seek(header + 0x34, true);
        self.writer.note(FieldKind::ResourceEntryCount, 2);
    }

    /// The NE header's bytes before its fields are known.
    pub(super) fn reserve_header(&mut self) {
        let fill: &[u8; HEADER] = &self.description.header_fill;
        self.writer.raw(fill);
    }
}
