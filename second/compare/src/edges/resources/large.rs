//! More resources than a word can count, more types than a byte can, and all
//! of 16 MB.

use super::{block, module, table, Judge, ResourceEdges, Words};

pub fn edges<Q: ResourceEdges>(judge: &mut Judge<Q>) {
    past_65_535(judge);
    many_types(judge);
    whole_image(judge);
}

/// A resource that stands for nothing.
const OTHER: Words = [0, 0, 0, 0x8001];
const LAST: Words = [5, 6, 7, 0x8002];

/// The last one comes behind so many others, 65,535 in a block at most.
fn past_65_535<Q: ResourceEdges>(judge: &mut Judge<Q>) {
    for before in [255, 256, 65_534, 65_535, 65_536, 65_537, 131_072] {
        let others = vec![OTHER; before];
        let mut blocks: Vec<Vec<u8>> = others
            .chunks(65_535)
            .map(|part| block(0x8001, part))
            .collect();
        blocks.push(block(0x9009, &[LAST]));
        let image = module(&table(0, &blocks));
        let number = before as u32 + 1;
        let name = format!("behind {before}");
        judge.gives(&name, &image, number, [0x9009, 0x8002, 7, 5, 6]);
        let past = [0x9009, 0x8003];
        judge.refuses_one(
            &format!("past it, {name}"),
            &image,
            number + 1,
            past,
            Q::NOT_THERE,
        );
        let end = image.bytes().len();
        let short = image.length(end - 1);
        judge.refuses_one(&format!("unended, {name}"), &short, 1, [0x8001; 2], 18);
    }
}

/// Blocks of one resource and of none, by turns.
fn many_types<Q: ResourceEdges>(judge: &mut Judge<Q>) {
    let mut blocks = Vec::new();
    for type_word in 0x8001..=0xFFFF {
        blocks.push(block(
            type_word,
            &[[type_word & 0xFF, 1, type_word, 0x8001]],
        ));
        blocks.push(block(type_word, &[]));
    }
    let image = module(&table(0, &blocks));
    for number in [1, 2, 255, 256, 257, 32_766, 32_767] {
        let type_word = 0x8000 + number;
        let fields = [type_word, 0x8001, type_word, number & 0xFF, 1];
        judge.gives(&format!("{number} of 32,767 types"), &image, number, fields);
    }
    judge.refuses_one("type 8000h", &image, 0, [0x8000, 0x8001], Q::NOT_THERE);
    judge.refuses_one(
        "past the types",
        &image,
        32_768,
        [0xFFFF, 0x8002],
        Q::NOT_THERE,
    );
}

/// 21 blocks of 65,535, one of 21,840 and one of none fill 16,777,216 bytes.
fn whole_image<Q: ResourceEdges>(judge: &mut Judge<Q>) {
    let full = block(0x8001, &vec![OTHER; 65_535]);
    let mut rest = vec![OTHER; 21_840];
    rest[21_839] = LAST;
    let blocks = [
        vec![full; 21],
        vec![block(0x9009, &rest), block(0x9009, &[])],
    ]
    .concat();
    let image = module(&table(0, &blocks));
    let fields = [0x9009, 0x8002, 7, 5, 6];
    judge.gives("the last of 16 MB", &image, 1_398_075, fields);
    let past = [0x9009, 0x8003];
    judge.refuses_one(
        "past the last of 16 MB",
        &image,
        1_398_076,
        past,
        Q::NOT_THERE,
    );
    let unended = image.put(16_777_215, &[1]);
    judge.refuses_one("16 MB, not ended", &unended, 1, [0x8001; 2], 18);
}
