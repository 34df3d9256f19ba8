//! What neither a header check nor the query looks at.

use super::{reads, HeaderEdges, Images, Judge, Minimal, Table};

pub fn edges<Q: HeaderEdges>(judge: &mut Judge<Q>) {
    other_fields(judge);
    other_places(judge);
    other_contents(judge);
}

/// The NE header's bytes that mean nothing, from and up to. The place of the
/// nonresident names is among them, since there are none.
const UNREAD: [(usize, usize); 4] = [(0x02, 0x04), (0x08, 0x1C), (0x2C, 0x32), (0x34, 0x40)];

/// Where the header has the places of tables that aren't among those of size 0.
const PLACES: [(usize, Table); 4] = [
    (0x24, Table::Resources),
    (0x26, Table::ResidentNames),
    (0x28, Table::Modules),
    (0x2A, Table::ImportedNames),
];

/// The places of tables that the query doesn't read.
fn other_tables<Q: HeaderEdges>() -> impl Iterator<Item = usize> {
    let others = PLACES.into_iter().filter(|(_, table)| !reads::<Q>(*table));
    others.map(|(offset, _)| offset)
}

fn other_fields<Q: HeaderEdges>(judge: &mut Judge<Q>) {
    let mz = Q::plain().put(2, &[0xFF; 58]);
    judge.accepts_plain("the MZ header's other bytes FFh", &mz);
    let word = Q::plain().put_word(0x18, 0x1E);
    judge.accepts_plain("the word at 18h under 40h", &word);
    let ne = unread_filled::<Q>();
    judge.accepts_plain("the NE header's other bytes FFh", &ne);
    let places = other_tables::<Q>().fold(ne, |image, offset| image.ne_word(offset, 0xFFFF));
    judge.accepts_plain("the same and all other places FFFFh", &places);
    let both = places.put(2, &[0xFF; 58]);
    judge.accepts_plain("both headers' other bytes FFh", &both);
    let counts = Q::plain().ne_word(0x30, 0xFFFF).ne_word(0x34, 0xFFFF);
    judge.accepts_plain("the counts at 30h and 34h", &counts);
}

/// All that means nothing is FFh, up to what the query needs.
fn unread_filled<Q: HeaderEdges>() -> Minimal {
    let mut image = Q::plain();
    for (from, to) in UNREAD {
        let (from, to) = (64 + from, (64 + to).min(Q::Images::NEEDED_FROM));
        image = image.put(from, &vec![0xFF; to - from]);
    }
    image
}

/// Tables without a size, and an empty one.
fn other_places<Q: HeaderEdges>(judge: &mut Judge<Q>) {
    for offset in other_tables::<Q>() {
        let outside = Q::plain().ne_word(offset, 0xFFFF);
        judge.accepts_plain(&format!("FFFFh at {offset:X}h"), &outside);
        let at_the_end = Q::plain().ne_word(offset, 80);
        judge.accepts_plain(&format!("the end's place at {offset:X}h"), &at_the_end);
    }
}

/// Tables of FFh, which no query that reads them would take.
fn other_contents<Q: HeaderEdges>(judge: &mut Judge<Q>) {
    let filled = || Q::plain().length(152).put(144, &[0xFF; 8]);
    for offset in other_tables::<Q>() {
        let image = filled().ne_word(offset, 80);
        judge.accepts_plain(&format!("FFh at the place at {offset:X}h"), &image);
    }
    if !reads::<Q>(Table::NonresidentNames) {
        let names = filled().ne_dword(0x2C, 144).ne_word(0x20, 8);
        judge.accepts_plain("nonresident names of FFh", &names);
    }
    if !reads::<Q>(Table::Modules) {
        let modules = filled().ne_word(0x28, 80).ne_word(0x1E, 4);
        judge.accepts_plain("module references of FFh", &modules);
    }
    if !reads::<Q>(Table::Entries) {
        let entries = filled().ne_word(0x04, 80).ne_word(0x06, 8);
        judge.accepts_plain("an entry table of FFh", &entries);
    }
}
