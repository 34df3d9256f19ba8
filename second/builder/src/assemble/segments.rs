//! Stored bytes, record lists and the segment table (document 01, "Segment record").

use super::{slot, word_of, Assembler, Place, Unfit, LONGEST_IMAGE};
use crate::description::{Fixup, Part, Put, Stored, Target, HAS_RECORDS, MOVABLE};
use crate::layout::{FieldKind, TableKind};

const LONGEST_SEGMENT: usize = 65_536;

impl Assembler<'_> {
    pub(super) fn put_segment(&mut self, index: usize, put: Put) -> Result<(), Unfit> {
        let part = Part::Segment(index);
        let description = self.description;
        let segment = description
            .segments
            .get(index)
            .ok_or(Unfit::NotPlaced(part))?;
        let (start, length, dry) = match &segment.stored {
            Stored::None { .. } => return Ok(()),
            Stored::Bytes(bytes) => {
                let (start, dry) = self.segment_place(part, put)?;
                (start, bytes.len(), dry)
            }
            Stored::Window { sector } => {
                let start = usize::from(*sector) << description.shift;
                (start, self.writer.end().saturating_sub(start), false)
            }
        };
        // A length of 0 would be read as 65,536.
        if length == 0 || length > LONGEST_SEGMENT {
            return Err(Unfit::Length(part));
        }
        if start > LONGEST_IMAGE {
            return Err(Unfit::TooLong);
        }
        let layout = &mut self.writer.layout.segments[index];
        layout.sector = sector_of(start, description.shift, part)?;
        layout.stored = start..start + length;
        self.writer.seek(start, dry);
        match &segment.stored {
            Stored::Bytes(bytes) => self.writer.raw(bytes),
            _ => self.writer.seek(start + length, dry),
        }
        self.writer.table(TableKind::Stored(index as u16), start);
        self.write_records(index, &segment.fixups)
    }

    /// Start and whether the bytes stand there already.
    fn segment_place(&self, part: Part, put: Put) -> Result<(usize, bool), Unfit> {
        let sector = 1usize << self.description.shift;
        match self.resolve(put)? {
            Place::Written(at) if matches!(put, Put::After { .. }) => {
                Ok((at.next_multiple_of(sector), false))
            }
            Place::Written(at) => Ok((at, false)),
            Place::Borrowed(at) => Ok((at, true)),
            Place::Raw(_) => Err(Unfit::Place(part)),
        }
    }

    /// The list stands right after the stored bytes: a count, then 8 bytes each.
    fn write_records(&mut self, index: usize, fixups: &[Fixup]) -> Result<(), Unfit> {
        let start = self.writer.at();
        self.writer.layout.segments[index].records = start..start;
        if self.description.segments[index].flags & HAS_RECORDS == 0 {
            return Ok(());
        }
        let segment = index as u16;
        let count = word_of(fixups.len(), Part::Segment(index))?;
        self.writer.word(FieldKind::RecordCount(segment), count);
        for (fixup, record) in fixups.iter().zip(0..) {
            self.write_record(fixup, segment, record);
        }
        self.writer.layout.segments[index].records.end = self.writer.at();
        self.writer.table(TableKind::Records(segment), start);
        Ok(())
    }

    fn write_record(&mut self, fixup: &Fixup, segment: u16, record: u16) {
        let writer = &mut self.writer;
        writer.byte(FieldKind::RecordType(segment, record), fixup.kind);
        writer.byte(FieldKind::RecordFlags(segment, record), fixup.flags);
        writer.word(FieldKind::RecordSite(segment, record), fixup.site);
        let last = match fixup.target {
            Target::Segment {
                number,
                reserved,
                offset,
            } => {
                writer.byte(FieldKind::TargetSegment(segment, record), number);
                writer.byte(FieldKind::TargetReserved(segment, record), reserved);
                offset
            }
            Target::Ordinal { reserved, ordinal } => {
                writer.byte(FieldKind::TargetSegment(segment, record), MOVABLE);
                writer.byte(FieldKind::TargetReserved(segment, record), reserved);
                ordinal
            }
            Target::ImportOrdinal {
                module: first,
                ordinal: last,
            }
            | Target::ImportName {
                module: first,
                string: last,
            }
            | Target::Os {
                kind: first,
                reserved: last,
            }
            | Target::Raw { first, last } => {
                writer.word(FieldKind::TargetFirst(segment, record), first);
                last
            }
        };
        writer.word(FieldKind::TargetLast(segment, record), last);
    }

    /// Sectors are known only when all segments are placed.
    pub(super) fn write_segment_table(&mut self) {
        match self.places[slot(Part::SegmentTable)] {
            Some(Place::Written(at)) => self.writer.seek(at, false),
            Some(Place::Borrowed(at)) => self.writer.seek(at, true),
            Some(Place::Raw(_)) | None => return,
        }
        for (segment, number) in self.description.segments.iter().zip(0..) {
            let layout = &self.writer.layout.segments[usize::from(number)];
            let (sector, stored) = (layout.sector, layout.stored.len());
            let length = match segment.stored {
                Stored::None { length } => length,
                // 65,536 is written as 0.
                _ => stored as u16,
            };
            self.writer.word(FieldKind::SegmentSector(number), sector);
            self.writer.word(FieldKind::SegmentLength(number), length);
            self.writer
                .word(FieldKind::SegmentFlags(number), segment.flags);
            self.writer
                .word(FieldKind::SegmentAllocation(number), segment.allocation);
        }
    }
}

/// The start in sectors; it must be a whole number from 1 to 65,535.
fn sector_of(start: usize, shift: u16, part: Part) -> Result<u16, Unfit> {
    let sector = start >> shift;
    if sector == 0 || sector << shift != start {
        return Err(Unfit::Place(part));
    }
    u16::try_from(sector).map_err(|_| Unfit::Place(part))
}
