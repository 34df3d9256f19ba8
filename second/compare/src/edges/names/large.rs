//! Long lists: more strings than a word can count, and all of 16 MB.

use super::{both, resident, string, Judge, NameEdges};

pub fn edges<Q: NameEdges>(judge: &mut Judge<Q>) {
    past_65_535(judge);
    into_the_other_list(judge);
    whole_image(judge);
}

/// So many equal strings of 4 bytes.
fn strings(count: usize) -> Vec<u8> {
    string(b"x", 0xABCD).repeat(count)
}

/// The last string comes behind so many others.
fn past_65_535<Q: NameEdges>(judge: &mut Judge<Q>) {
    for before in [255, 256, 5_000, 65_534, 65_535, 65_536, 65_537, 131_072] {
        let names = [strings(before), string(b"LAST", 0x4321), vec![0]].concat();
        let image = resident(&names);
        let name = format!("behind {before}");
        let (number, at) = (before as u32 + 1, 129 + 4 * before as u32);
        judge.holds(&name, &image, b"LAST", [number, at, 4, 0x4321]);
        judge.lacks(&format!("past it, {name}"), &image, number + 1, b"MORE");
        let end = image.bytes().len();
        let unended = image.length(end - 1);
        judge.refuses(&format!("unended, {name}"), &unended, Q::asked(), 16);
    }
}

/// The nonresident names are numbered behind all of the resident ones.
fn into_the_other_list<Q: NameEdges>(judge: &mut Judge<Q>) {
    for before in [255, 256, 65_534, 65_535, 65_536, 70_000] {
        let names = [strings(before), vec![0]].concat();
        let other = [string(b"D", 0), string(b"LAST", 0x4321), vec![0]].concat();
        let image = both(&names, &other);
        let name = format!("nonresident behind {before}");
        let (number, at) = (before as u32 + 2, 134 + 4 * before as u32);
        judge.holds(&name, &image, b"LAST", [number, at, 4, 0x4321]);
        judge.lacks(&format!("past it, {name}"), &image, number + 1, b"MORE");
    }
    // 16,382 strings, the last one of 5 bytes and the end byte: 65,534 bytes.
    let most = [strings(16_382), string(b"zz", 0x4321), vec![0]].concat();
    let image = both(&[strings(65_535), vec![0]].concat(), &most);
    let fields = [81_918, 327_798, 2, 0x4321];
    judge.holds("the most of both", &image, b"zz", fields);
    judge.lacks("past the most of both", &image, 81_919, b"zzz");
}

/// The list fills 16,777,216 bytes: 65,027 strings of 255 bytes and one more,
/// or 4,194,270 of one byte and one more.
fn whole_image<Q: NameEdges>(judge: &mut Judge<Q>) {
    let last = [b'L'; 118];
    let long = string(&[b'x'; 255], 0).repeat(65_027);
    let image = resident(&[long, string(&last, 0x4321), vec![0]].concat());
    let fields = [65_028, 16_777_095, 118, 0x4321];
    judge.holds("the last of 16 MB", &image, &last, fields);
    judge.lacks("past the last of 16 MB", &image, 65_029, b"MORE");
    let unended = image.put(16_777_215, &[1]);
    judge.refuses("16 MB, not ended", &unended, Q::asked(), 16);
    let short = [strings(4_194_270), string(b"LAST", 0x4321), vec![0]].concat();
    let fields = [4_194_271, 16_777_209, 4, 0x4321];
    judge.holds("the last of 4,194,271", &resident(&short), b"LAST", fields);
}
