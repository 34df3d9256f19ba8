//! The resources of the resource table.

use super::{table, word};

/// The two words that a resource can be asked for by.
#[derive(Clone, Copy)]
pub struct Resource {
    pub type_word: u32,
    pub id_word: u32,
}

/// Those whose words are there, in file order.
pub fn resources(image: &[u8]) -> Vec<Resource> {
    let mut resources = Vec::new();
    let blocks = table(image, 0x24).and_then(|table| table.get(2..));
    let mut rest = blocks.unwrap_or_default();
    while let (Some(type_word @ 1..), Some(count)) = (word(rest, 0), word(rest, 2)) {
        for index in 0..count as usize {
            let Some(id_word) = word(rest, 8 + 12 * index + 6) else {
                return resources;
            };
            resources.push(Resource { type_word, id_word });
        }
        rest = rest.get(8 + 12 * count as usize..).unwrap_or_default();
    }
    resources
}
