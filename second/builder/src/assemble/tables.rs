//! The tables that the NE header places.

use super::{byte_of, word_of, Assembler, Unfit};
use crate::description::{Bundle, NameList, Part, MOVABLE};
use crate::layout::{FieldKind, NameListKind, TableKind};

impl Assembler<'_> {
    /// Writes a table at the writer's place and notes its extent.
    pub(super) fn write_table(&mut self, part: Part) -> Result<(), Unfit> {
        let start = self.writer.at();
        let description = self.description;
        match part {
            Part::Header => self.reserve_header(),
            Part::SegmentTable => {
                // The records follow when the segments have their places.
                self.writer.raw(&vec![0; 8 * description.segments.len()]);
            }
            Part::EntryTable => self.write_entries()?,
            Part::ResidentNames => {
                self.write_names(&description.resident, NameListKind::Resident, part)?;
            }
            Part::NonresidentNames => {
                self.write_names(&description.nonresident, NameListKind::Nonresident, part)?;
            }
            Part::ModuleReferences => {
                for &place in &description.modules {
                    self.writer.word(FieldKind::ModuleReference, place);
                }
            }
            Part::ImportedNames => self.write_imported(start),
            Part::Resources => self.write_resources()?,
            Part::Segment(_) => {}
        }
        self.writer.table(table_kind(part), start);
        Ok(())
    }

    /// The bytes of a sized table, as `write_table` writes them.
    pub(super) fn size_of(&self, part: Part) -> usize {
        let description = self.description;
        match part {
            Part::EntryTable => {
                let table = &description.entries;
                let bundles: usize = table.bundles.iter().map(bundle_size).sum();
                bundles + usize::from(table.end) + table.trailing.len()
            }
            Part::NonresidentNames => {
                let list = &description.nonresident;
                let names: usize = list.names.iter().map(|name| name.text.len() + 3).sum();
                names + usize::from(list.end) + list.trailing.len()
            }
            _ => 0,
        }
    }

    fn write_entries(&mut self) -> Result<(), Unfit> {
        let table = &self.description.entries;
        for bundle in &table.bundles {
            let count = byte_of(bundle.count(), Part::EntryTable)?;
            self.writer.byte(FieldKind::BundleCount, count);
            self.write_bundle(bundle);
        }
        if table.end {
            self.writer.byte(FieldKind::EntryEnd, 0);
        }
        self.writer.raw(&table.trailing);
        Ok(())
    }

    /// All of a bundle but its count.
    fn write_bundle(&mut self, bundle: &Bundle) {
        let writer = &mut self.writer;
        match bundle {
            Bundle::Null { .. } => writer.byte(FieldKind::BundleSegment, 0),
            Bundle::Fixed { segment, entries } => {
                writer.byte(FieldKind::BundleSegment, *segment);
                for entry in entries {
                    writer.byte(FieldKind::EntryFlag, entry.flag);
                    writer.word(FieldKind::EntryOffset, entry.offset);
                }
            }
            Bundle::Movable { entries } => {
                writer.byte(FieldKind::BundleSegment, MOVABLE);
                for entry in entries {
                    writer.byte(FieldKind::EntryFlag, entry.flag);
                    writer.word(FieldKind::EntryInterrupt, u16::from_le_bytes([0xCD, 0x3F]));
                    writer.byte(FieldKind::EntrySegment, entry.segment);
                    writer.word(FieldKind::EntryOffset, entry.offset);
                }
            }
        }
    }

    fn write_names(
        &mut self,
        list: &NameList,
        kind: NameListKind,
        part: Part,
    ) -> Result<(), Unfit> {
        for name in &list.names {
            let length = byte_of(name.text.len(), part)?;
            self.writer.byte(FieldKind::NameLength(kind), length);
            self.writer.raw(&name.text);
            self.writer.word(FieldKind::NameOrdinal(kind), name.ordinal);
        }
        if list.end {
            self.writer.byte(FieldKind::NameEnd(kind), 0);
        }
        self.writer.raw(&list.trailing);
        Ok(())
    }

    fn write_imported(&mut self, start: usize) {
        let imported = &self.description.imported;
        self.writer.raw(&imported.bytes);
        let end = self.writer.at();
        for &string in &imported.strings {
            self.writer.seek(start + usize::from(string), true);
            self.writer.note(FieldKind::ImportedLength, 1);
        }
        self.writer.seek(end, true);
    }

    fn write_resources(&mut self) -> Result<(), Unfit> {
        let Some(table) = &self.description.resources else {
            return Ok(());
        };
        let writer = &mut self.writer;
        writer.word(FieldKind::ResourceShift, table.shift);
        for block in &table.blocks {
            writer.word(FieldKind::ResourceType, block.kind);
            let count = word_of(block.resources.len(), Part::Resources)?;
            writer.word(FieldKind::ResourceCount, count);
            writer.dword(FieldKind::ResourceReserved, block.reserved);
            for resource in &block.resources {
                writer.word(FieldKind::ResourceOffset, resource.offset);
                writer.word(FieldKind::ResourceLength, resource.length);
                writer.word(FieldKind::ResourceFlags, resource.flags);
                writer.word(FieldKind::ResourceId, resource.id);
                writer.dword(FieldKind::ResourceReserved, resource.reserved);
            }
        }
        if table.end {
            writer.word(FieldKind::ResourceEnd, 0);
        }
        Ok(())
    }
}

fn bundle_size(bundle: &Bundle) -> usize {
    match bundle {
        Bundle::Null { .. } => 2,
        Bundle::Fixed { entries, .. } => 2 + 3 * entries.len(),
        Bundle::Movable { entries } => 2 + 6 * entries.len(),
    }
}

fn table_kind(part: Part) -> TableKind {
    match part {
        Part::Header => TableKind::NeHeader,
        Part::SegmentTable => TableKind::Segments,
        Part::EntryTable => TableKind::Entries,
        Part::ResidentNames => TableKind::Resident,
        Part::NonresidentNames => TableKind::Nonresident,
        Part::ModuleReferences => TableKind::Modules,
        Part::ImportedNames => TableKind::Imported,
        Part::Resources => TableKind::Resources,
        Part::Segment(index) => TableKind::Stored(index as u16),
    }
}
