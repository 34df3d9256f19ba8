//! A module's file, and what can be asked of it.

use crate::library;
use crate::refusal::{check, Refusal};
use crate::results::{NameResult, ResourceResult};
use crate::values::{Entry, Header, Module, Name, Resource, Segment};

/// A module: all bytes of its file, of which nothing is known.
///
/// Each query checks what it reads, from the header on, and keeps nothing.
///
/// ```
/// use parchgable::{Image, Refusal};
///
/// let image = Image::new(b"no module");
/// assert_eq!(image.header(), Err(Refusal::ImageTooShort));
/// assert_eq!(image.list(), b"refused 1\n");
/// ```
#[derive(Clone, Copy, Debug)]
pub struct Image<'a> {
    bytes: &'a [u8],
}

impl<'a> Image<'a> {
    /// An image of these bytes, from the file's first on.
    pub const fn new(bytes: &'a [u8]) -> Self {
        Image { bytes }
    }

    /// The bytes of the file.
    pub const fn bytes(self) -> &'a [u8] {
        self.bytes
    }

    /// Where the tables are. Refusals: 1 to 7.
    pub fn header(self) -> Result<Header, Refusal> {
        let found = library::header(self.bytes);
        check(found.refusal)?;
        Ok(Header {
            header_at: found.header_at,
            unit: found.unit,
            segments_at: found.segments_at,
            segments: found.segments,
            modules_at: found.modules_at,
            modules: found.modules,
            entries_at: found.entries_at,
            entries_len: found.entries_len,
            nonresident_at: found.nonresident_at,
            nonresident_len: found.nonresident_len,
            resident_at: found.resident_at,
            imported_at: found.imported_at,
            resources_at: found.resources_at,
        })
    }

    /// The segment of a number. Refusals: 1 to 7, then 8, 10, 11, 9.
    pub fn segment(self, number: u32) -> Result<Segment<'a>, Refusal> {
        let found = library::segment(self.bytes, number);
        check(found.refusal)?;
        Ok(Segment {
            start: found.start,
            stored: self.part(found.start, found.stored),
            flags: found.flags as u16,
            allocation: found.allocation,
            records: found.records,
        })
    }

    /// The entry of an ordinal. Refusals: 1 to 7, then 12 to 14 for the whole
    /// entry table, then 15.
    pub fn ordinal(self, number: u32) -> Result<Entry, Refusal> {
        let found = library::ordinal(self.bytes, number);
        check(found.refusal)?;
        Ok(Entry {
            segment: found.segment as u8,
            offset: found.offset as u16,
            flag: found.flag as u8,
        })
    }

    /// The name of a number. Refusals: 1 to 7, then 16 for either list, then 8.
    pub fn name(self, number: u32) -> Result<Name<'a>, Refusal> {
        self.name_of(library::name_by_number(self.bytes, number))
    }

    /// The first name that has exactly these bytes, without the first strings
    /// of the two lists. Refusals: 1 to 7, then 16 for either list, then 17.
    pub fn find_name(self, name: &[u8]) -> Result<Name<'a>, Refusal> {
        self.name_of(library::name_by_bytes(self.bytes, name))
    }

    /// The module of a number. Refusals: 1 to 7, then 8, then 16 for its own
    /// string alone.
    pub fn module(self, number: u32) -> Result<Module<'a>, Refusal> {
        let found = library::module(self.bytes, number);
        check(found.refusal)?;
        Ok(Module {
            text_at: found.text_at,
            text: self.part(found.text_at, found.text_len),
        })
    }

    /// The resource of a number, through all types. Refusals: 1 to 7, then 18
    /// for the whole table, then 8, then 20.
    pub fn resource(self, number: u32) -> Result<Resource<'a>, Refusal> {
        self.resource_of(library::resource_by_number(self.bytes, number))
    }

    /// The first resource that has these two words; a word without the bit
    /// 8000h, or over FFFFh, finds nothing. Refusals: 1 to 7, then 18 for the
    /// whole table, then 19, then 20.
    pub fn find_resource(self, kind: u32, id: u32) -> Result<Resource<'a>, Refusal> {
        self.resource_of(library::resource_by_words(self.bytes, kind, id))
    }

    /// The listing of the ordinals, as the listing program writes it but for
    /// images of any size:
    ///
    /// ```text
    /// ordinals 4
    /// 1 1:0010 01
    /// 4 2:0020 03
    /// end
    /// ```
    ///
    /// Refusals 1 to 7 and 12 to 14 give one line, `refused 12` for example.
    pub fn list(self) -> Vec<u8> {
        let mut text = vec![0; self.list_into(&mut [])];
        self.list_into(&mut text);
        text
    }

    /// The same at the front of `text`, as much of it as fits, and gives the
    /// length of the whole. The rest of `text` stays as it came.
    pub fn list_into(self, text: &mut [u8]) -> usize {
        library::list(self.bytes, text)
    }

    fn name_of(self, found: NameResult) -> Result<Name<'a>, Refusal> {
        check(found.refusal)?;
        Ok(Name {
            number: found.number,
            text_at: found.text_at,
            text: self.part(found.text_at, found.text_len),
            ordinal: found.ordinal as u16,
        })
    }

    fn resource_of(self, found: ResourceResult) -> Result<Resource<'a>, Refusal> {
        check(found.refusal)?;
        Ok(Resource {
            kind: found.kind as u16,
            id: found.id as u16,
            flags: found.flags as u16,
            data_at: found.data_at,
            data: self.part(found.data_at, found.data_len),
        })
    }

    /// A part that the library has found inside the image.
    fn part(self, at: u32, length: u32) -> &'a [u8] {
        &self.bytes[at as usize..][..length as usize]
    }
}
