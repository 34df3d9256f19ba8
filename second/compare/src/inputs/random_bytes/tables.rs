//! Short tables of bytes and words that mean something there.

use builder::Random;

/// Bytes that mean something in an entry table.
const ENTRY_BYTES: [u8; 8] = [0, 1, 2, 3, 254, 255, 0xCD, 0x3F];
/// Bytes that mean something in a list of names, the end byte most often.
const NAME_BYTES: [u8; 8] = [0, 0, 0, 1, 1, 2, 3, b'A'];

/// A few bytes, now and then behind about as many null ordinals as there may be.
pub fn entry_table(random: &mut Random) -> Vec<u8> {
    let (nulls, more) = match random.below(5) {
        0 => (random.between(256, 257), random.below(6)),
        _ => (0, random.below(20)),
    };
    let mut table = [255, 0].repeat(nulls);
    table.extend((0..more).map(|_| random.pick(&ENTRY_BYTES)));
    table
}

/// A few bytes, not all of which need be part of the list.
pub fn name_list(random: &mut Random) -> Vec<u8> {
    let length = random.between(1, 25);
    (0..length).map(|_| random.pick(&NAME_BYTES)).collect()
}

/// Up to three places, mostly small.
pub fn module_references(random: &mut Random) -> Vec<u8> {
    let mut place = || match random.below(6) {
        0 => random.edge_u16(),
        _ => random.below(20) as u16,
    };
    let count = place() % 4;
    (0..count).flat_map(|_| place().to_le_bytes()).collect()
}

/// A shift, a few blocks and type 0; now and then a byte of it is any other.
pub fn resource_table(random: &mut Random) -> Vec<u8> {
    let mut table = (random.below(17) as u16).to_le_bytes().to_vec();
    for _ in 0..random.below(3) {
        table.extend(block(random));
    }
    table.extend([0, 0]);
    if random.one_in(4) {
        let at = random.below(table.len());
        table[at] = random.byte();
    }
    table
}

/// Up to two resources, near the image's start.
fn block(random: &mut Random) -> Vec<u8> {
    let count = random.below(3) as u16;
    let mut words = vec![random.pick(&[0x8001, 0x8002, 1]), count, 0, 0];
    for _ in 0..count {
        let (offset, length) = (random.below(200) as u16, random.below(100) as u16);
        let id = random.pick(&[0x8001, 0x8002, 1, 0]);
        words.extend([offset, length, random.edge_u16(), id, 0, 0]);
    }
    words.into_iter().flat_map(u16::to_le_bytes).collect()
}
