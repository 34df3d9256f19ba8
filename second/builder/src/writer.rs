//! Bytes that grow as they are written, with a note of every field.

use crate::layout::{Field, FieldKind, Layout, Table, TableKind};

pub(crate) struct Writer {
    pub(crate) bytes: Vec<u8>,
    pub(crate) layout: Layout,
    filler: u8,
    at: usize,
    /// Fields are noted, but the bytes stay as they are.
    dry: bool,
}

impl Writer {
    pub(crate) fn new(filler: u8) -> Self {
        Writer {
            bytes: Vec::with_capacity(1024),
            layout: Layout::default(),
            filler,
            at: 0,
            dry: false,
        }
    }

    /// Goes on at `at`; `dry` notes fields and leaves the bytes.
    pub(crate) fn seek(&mut self, at: usize, dry: bool) {
        self.at = at;
        self.dry = dry;
    }

    pub(crate) fn at(&self) -> usize {
        self.at
    }

    pub(crate) fn end(&self) -> usize {
        self.bytes.len()
    }

    pub(crate) fn grow_to(&mut self, length: usize) {
        if length > self.bytes.len() {
            self.bytes.resize(length, self.filler);
        }
    }

    pub(crate) fn raw(&mut self, bytes: &[u8]) {
        if !self.dry {
            self.grow_to(self.at);
            let over = bytes.len().min(self.bytes.len() - self.at);
            self.bytes[self.at..self.at + over].copy_from_slice(&bytes[..over]);
            self.bytes.extend_from_slice(&bytes[over..]);
        }
        self.at += bytes.len();
    }

    pub(crate) fn byte(&mut self, what: FieldKind, value: u8) {
        self.note(what, 1);
        self.raw(&[value]);
    }

    pub(crate) fn word(&mut self, what: FieldKind, value: u16) {
        self.note(what, 2);
        self.raw(&value.to_le_bytes());
    }

    pub(crate) fn dword(&mut self, what: FieldKind, value: u32) {
        self.note(what, 4);
        self.raw(&value.to_le_bytes());
    }

    /// Notes a field at the present place.
    pub(crate) fn note(&mut self, what: FieldKind, width: u8) {
        let at = self.at;
        self.layout.fields.push(Field { at, width, what });
    }

    /// Notes a table from `start` to the present place.
    pub(crate) fn table(&mut self, what: TableKind, start: usize) {
        let end = self.at;
        self.layout.tables.push(Table { start, end, what });
    }
}
