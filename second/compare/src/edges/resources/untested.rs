//! What the resource queries don't look at.

use super::{fields, one, Judge, ResourceEdges};

pub fn edges<Q: ResourceEdges>(judge: &mut Judge<Q>) {
    reserved(judge);
    name_lists(judge);
    entry_table(judge);
}

/// The 4 bytes of a block and the 4 of a resource.
fn reserved<Q: ResourceEdges>(judge: &mut Judge<Q>) {
    for byte in [0x00, 0x01, 0x7F, 0x80, 0xFF] {
        let image = one(0, 0, 4).put(134, &[byte; 4]).put(146, &[byte; 4]);
        judge.gives(&format!("reserved {byte:02X}h"), &image, 1, fields(0, 4));
    }
}

/// Neither list needs to be sound.
fn name_lists<Q: ResourceEdges>(judge: &mut Judge<Q>) {
    let image = one(0, 0, 4).length(160).put(152, &[0xFF; 8]);
    let resident = image.ne_word(0x26, 88);
    judge.gives("an unsound resident list", &resident, 1, fields(0, 4));
    let both = resident.ne_word(0x20, 8).ne_dword(0x2C, 152);
    judge.gives("two unsound lists", &both, 1, fields(0, 4));
}

/// Nor is the entry table walked, nor a segment's record looked at.
fn entry_table<Q: ResourceEdges>(judge: &mut Judge<Q>) {
    let image = one(0, 0, 4).length(160).put(152, &[0xFF; 8]);
    let entries = image.ne_word(0x04, 88).ne_word(0x06, 8);
    judge.gives("an unsound entry table", &entries, 1, fields(0, 4));
    let segments = entries.ne_word(0x1C, 1).ne_word(0x22, 88);
    judge.gives("an unsound segment", &segments, 1, fields(0, 4));
}
