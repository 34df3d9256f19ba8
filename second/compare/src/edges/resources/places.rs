//! Where the table stands: past 16 and 24 bits, and over other things.

use super::{block, fields, module, one, table, Judge, Minimal, ResourceEdges};

pub fn edges<Q: ResourceEdges>(judge: &mut Judge<Q>) {
    past_16_bits(judge);
    past_24_bits(judge);
    counted_from(judge);
    overlaps(judge);
}

/// The table of [`one`], of 24 bytes.
fn short() -> Vec<u8> {
    one(0, 0, 4).bytes()[128..].to_vec()
}

/// 64 + FFFFh is 65,599.
fn past_16_bits<Q: ResourceEdges>(judge: &mut Judge<Q>) {
    let at = |place: u16| {
        let start = 64 + usize::from(place);
        let image = Minimal::new().length(start + 24).ne_word(0x24, place);
        image.put(start, &short())
    };
    for place in [0xFFBF, 0xFFC0, 0xFFC1, 0xFFFF] {
        let name = format!("place {place:X}h");
        judge.gives(&name, &at(place), 1, fields(0, 4));
        let cut = at(place).length(64 + usize::from(place) + 23);
        judge.refuses_all(&format!("{name}, one past"), &cut, 18);
    }
}

/// The table ends an image of 16,777,216 bytes.
fn past_24_bits<Q: ResourceEdges>(judge: &mut Judge<Q>) {
    const END: usize = 16_777_216;
    let image = Minimal::with_header_at(END - 64 - 24)
        .length(END)
        .ne_word(0x24, 64)
        .put(END - 24, &short());
    judge.gives("the last 24 of 16 MB", &image, 1, fields(0, 4));
    let unended = image.put(END - 2, &[1]);
    judge.refuses_all("not ended there", &unended, 18);
}

/// The place counts from the NE header; the data's from the file's start.
fn counted_from<Q: ResourceEdges>(judge: &mut Judge<Q>) {
    let other = table(0, &[block(0x8001, &[[1, 1, 1, 0x8002]])]);
    let image = Minimal::with_header_at(200)
        .length(400)
        .ne_word(0x24, 100)
        .put(100, &other)
        .put(300, &one(0, 77, 4).bytes()[128..]);
    judge.gives("100 from 200 on", &image, 1, fields(77, 4));
    let shifted = image.put_word(300, 2);
    judge.gives("the same at shift 2", &shifted, 1, fields(308, 16));
}

/// The table may lie over the header, the names and the segments' records.
fn overlaps<Q: ResourceEdges>(judge: &mut Judge<Q>) {
    let segments = one(0, 0, 4).ne_word(0x1C, 3).ne_word(0x22, 64);
    judge.gives("over the segment table", &segments, 1, fields(0, 4));
    let names = one(0, 0, 4).ne_word(0x20, 24).ne_dword(0x2C, 128);
    judge.gives("over the nonresident names", &names, 1, fields(0, 4));
    let resident = one(0, 0, 4).ne_word(0x26, 66);
    judge.gives("over the resident names", &resident, 1, fields(0, 4));
    // A resource's reserved bytes are where its own data is.
    let own = module(&table(0, &[block(0x8001, &[[138, 14, 0x0C30, 0x8002]])]));
    judge.gives("its own record as data", &own, 1, fields(138, 14));
    // "NE" would be a shift of 454Eh.
    let header = Minimal::new().length(400).ne_word(0x26, 1);
    judge.refuses_all("over the NE header", &header, 18);
}
