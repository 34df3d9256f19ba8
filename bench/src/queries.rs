//! Images on which queries take long: the walk goes through the whole image, or
//! through the longest entry table.

mod images;

use images::{entries, names, resources};

/// The longest image.
pub const LONGEST: usize = 16_777_216;

/// What is asked of an image.
#[derive(Clone, Debug, PartialEq, Eq)]
pub enum Ask {
    /// The name of a number.
    NameByNumber(u32),
    /// The name of these bytes.
    NameByBytes(Vec<u8>),
    /// The resource of a number.
    ResourceByNumber(u32),
    /// The resource of a type and an id.
    ResourceByWords(u32, u32),
    /// The entry of an ordinal.
    Ordinal(u32),
    /// The listing.
    List,
}

impl Ask {
    /// The exported function that answers it.
    pub fn call(&self) -> &'static str {
        match self {
            Ask::NameByNumber(_) => "ne_name_by_number",
            Ask::NameByBytes(_) => "ne_name_by_bytes",
            Ask::ResourceByNumber(_) => "ne_resource_by_number",
            Ask::ResourceByWords(..) => "ne_resource_by_words",
            Ask::Ordinal(_) => "ne_ordinal",
            Ask::List => "ne_list",
        }
    }

    /// What the second program answers: a refusal or 0, or the listing's length.
    pub fn second(&self, image: &[u8]) -> usize {
        let refusal = match self {
            Ask::NameByNumber(number) => reference::name_by_number(image, *number).err(),
            Ask::NameByBytes(name) => reference::name_by_bytes(image, name).err(),
            Ask::ResourceByNumber(number) => reference::resource_by_number(image, *number).err(),
            Ask::ResourceByWords(kind, id) => reference::resource_by_words(image, *kind, *id).err(),
            Ask::Ordinal(number) => reference::ordinal(image, *number).err(),
            Ask::List => return reference::listing(image).len(),
        };
        refusal.unwrap_or(0) as usize
    }
}

/// An image with what is asked of it.
pub struct Subject {
    /// What the image is, for the table.
    pub name: String,
    /// The whole module.
    pub image: Vec<u8>,
    /// Nothing of this is found before the end.
    pub asks: Vec<Ask>,
}

/// The bytes of a name's text: all have as many, or any number in this range.
const TEXTS: [(usize, usize); 8] = [
    (1, 1),
    (2, 2),
    (4, 4),
    (8, 8),
    (32, 32),
    (255, 255),
    (1, 2),
    (1, 4),
];
/// The resources of a block, in the same way.
const COUNTS: [(usize, usize); 7] = [
    (0, 0),
    (1, 1),
    (2, 2),
    (16, 16),
    (1_000, 1_000),
    (0, 1),
    (0, 3),
];

/// All of them, with images of this length; each is made when it is its turn.
pub fn all(length: usize) -> impl Iterator<Item = Subject> {
    let names = TEXTS.into_iter().map(move |texts| names(length, texts));
    let resources = COUNTS
        .into_iter()
        .map(move |counts| resources(length, counts));
    names.chain(resources).chain(entries())
}
