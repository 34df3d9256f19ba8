//! Many made-up images through every call: none panics, and the promises that
//! hold for every input hold.

use crate::build::*;
use reference::*;

/// A small generator of pseudo-random numbers (xorshift).
struct Random(u64);

impl Random {
    fn next(&mut self) -> u64 {
        self.0 ^= self.0 << 13;
        self.0 ^= self.0 >> 7;
        self.0 ^= self.0 << 17;
        self.0
    }

    /// A number under `limit`.
    fn under(&mut self, limit: u64) -> u64 {
        (self.next() >> 16) % limit
    }

    fn byte(&mut self) -> u8 {
        (self.next() >> 24) as u8
    }

    fn word(&mut self) -> u16 {
        (self.next() >> 24) as u16
    }

    fn bytes(&mut self, length: u64) -> Vec<u8> {
        (0..length).map(|_| self.byte()).collect()
    }
}

/// Bytes without any order, with sound signatures half of the time.
fn noise(random: &mut Random) -> Vec<u8> {
    let length = random.under(400);
    let mut image = random.bytes(length);
    if image.len() >= 128 && random.under(2) == 0 {
        image[..2].copy_from_slice(b"MZ");
        put_dword(&mut image, 0x3C, NE as u32);
        image[NE..NE + 2].copy_from_slice(b"NE");
        // Small fields, so that tables often lie inside.
        for field in (2..64).step_by(2) {
            let value = random.under(300);
            put_word(&mut image, NE + field, value as u16);
        }
        put_dword(&mut image, NONRESIDENT, random.under(300) as u32);
        put_word(&mut image, SHIFT, random.under(8) as u16);
        put_word(&mut image, SEGMENT_COUNT, random.under(10) as u16);
    }
    image
}

/// A record that is often sound for segments of some 40 bytes.
fn some_record(random: &mut Random, length: u64) -> [u8; 8] {
    let type_byte = [0, 2, 3, 5, 5, 0x13, random.byte()][random.under(7) as usize];
    let flag = [0, 4, 4, 1, 5, 6, 7, random.byte()][random.under(8) as usize];
    let site = random.under(length + 1) as u16;
    let first = [1, 1, 2, 1, 255, random.word()][random.under(6) as usize];
    let last = [1, 2, 3, random.word()][random.under(4) as usize];
    record(type_byte, flag, site, first, last)
}

/// A segment with its records, whose bytes are often ends of chains.
fn some_segment(random: &mut Random) -> Seg {
    let length = random.under(40);
    let mut stored = vec![0xFF; length as usize];
    for byte in &mut stored {
        match random.under(16) {
            0 => *byte = random.byte(),
            1 => *byte = random.under(length) as u8,
            2 => *byte = 0,
            _ => {}
        }
    }
    let count = random.under(5);
    let records = (0..count).map(|_| some_record(random, length)).collect();
    let more = random.under(20) as u16;
    Seg {
        allocation: Some(length as u16 + more),
        flags: random.word() & 0xFEF7,
        records: if length == 0 { vec![] } else { records },
        stored,
    }
}

/// Bundles of an entry table that is mostly sound.
fn some_entries(random: &mut Random) -> Vec<u8> {
    let mut table = Vec::new();
    for _ in 0..random.under(4) {
        let count = 1 + random.under(3) as u8;
        match random.under(3) {
            0 => table.extend([count, 0]),
            1 => {
                table.extend([count, 1]);
                table.extend(random.bytes(3 * u64::from(count)));
            }
            _ => {
                table.extend([count, 255]);
                for _ in 0..count {
                    table.extend([random.byte(), 0xCD, 0x3F, 1, random.byte(), 0]);
                }
            }
        }
    }
    table.push(0);
    table
}

/// A list of names.
fn some_names(random: &mut Random) -> Vec<u8> {
    let mut list = Vec::new();
    for _ in 0..random.under(4) {
        let length = 1 + random.under(3);
        list.push(length as u8);
        list.extend(vec![b'A' + random.under(2) as u8; length as usize]);
        list.extend(random.bytes(2));
    }
    list.push(0);
    list
}

/// A resource table.
fn some_resources(random: &mut Random) -> Vec<u8> {
    let mut table = vec![random.under(5) as u8, 0];
    for _ in 0..random.under(3) {
        let count = random.under(3) as u8;
        table.extend([1 + random.under(2) as u8, 0x80, count, 0, 0, 0, 0, 0]);
        for _ in 0..count {
            table.extend([random.byte(), 0, random.under(9) as u8, 0, 7, 7]);
            table.extend([1 + random.under(2) as u8, 0x80, 0, 0, 0, 0]);
        }
    }
    table.extend([0, 0]);
    table
}

/// An image that is mostly sound.
fn built(random: &mut Random) -> Vec<u8> {
    let resources = some_resources(random);
    let count = 1 + random.under(3);
    Build {
        shift: random.under(5) as u16,
        segments: (0..count).map(|_| some_segment(random)).collect(),
        entry: some_entries(random),
        resident: some_names(random),
        nonresident: some_names(random),
        modules: vec![1, 0],
        imported: b"\x00\x03USR\x04FOUR".to_vec(),
        resources: (random.under(4) != 0).then_some(resources),
    }
    .image()
}

/// Flips a few bits, mostly in the headers and tables, and sometimes cuts.
fn spoil(random: &mut Random, image: &mut Vec<u8>) {
    for _ in 0..random.under(4) {
        let at = random.under(image.len() as u64) as usize;
        image[at] ^= 1 << random.under(8);
    }
    if random.under(8) == 0 {
        let length = random.under(image.len() as u64 + 1);
        image.truncate(length as usize);
    }
}

/// Asks every query some numbers. What is accepted lies in the image.
fn ask(random: &mut Random, image: &[u8]) {
    let inside = |at: u32, length: u32| {
        assert!(u64::from(at) + u64::from(length) <= image.len() as u64);
    };
    for number in [0, 1, 2, random.under(9) as u32, random.next() as u32] {
        if let Ok(found) = segment(image, number) {
            inside(found.start, found.stored);
            assert!(found.stored <= found.allocation);
        }
        let _ = ordinal(image, number);
        if let Ok(found) = name_by_number(image, number) {
            inside(found.text_at, found.text_len);
            assert_eq!(found.number, number);
        }
        if let Ok(found) = module(image, number) {
            inside(found.text_at, found.text_len);
        }
        if let Ok(found) = resource_by_number(image, number) {
            inside(found.data_at, found.data_len);
        }
    }
    let length = random.under(4) as usize;
    if let Ok(found) = name_by_bytes(image, &b"AAAA"[..length]) {
        assert_eq!(name_by_number(image, found.number), Ok(found));
    }
    let id = 0x8000 + random.under(3) as u32;
    if let Ok(found) = resource_by_words(image, 0x8001, id) {
        assert_eq!((found.type_, found.id), (0x8001, id));
    }
    if let Ok(found) = tables(image) {
        inside(found.header_at, 64);
        assert!(found.segments == 0 || found.segments_at >= found.header_at);
    }
    let text = listing(image);
    assert!(text.ends_with(b"\n"));
    assert!(image.len() > 65_536 || list(image, &mut []) == text.len());
}

/// What is lent for preparing.
struct Lent {
    selectors: Vec<u16>,
    answers: Vec<u32>,
    output: Vec<u8>,
    marks: Vec<u8>,
}

fn lend(random: &mut Random) -> Lent {
    let short = random.under(8) == 0;
    let limit = if short { 6 } else { 200 };
    let mut length = |from| from + random.under(limit) as usize;
    let from = if short { 0 } else { 80 };
    Lent {
        selectors: vec![0; length(from)],
        answers: vec![0; length(from)],
        output: vec![0xEE; length(from)],
        marks: vec![0x77; length(from)],
    }
}

/// Prepares a segment and checks the promises on what was lent. The number of
/// sites where it was accepted.
fn check_prepare(random: &mut Random, image: &[u8], number: u32) -> Option<u32> {
    let mut lent = lend(random);
    for selector in &mut lent.selectors {
        *selector = random.word();
    }
    for answer in &mut lent.answers {
        *answer = random.next() as u32;
    }
    let (selectors, answers) = (&lent.selectors, &lent.answers);
    let before = lent.output.clone();
    let result = prepare(
        image,
        number,
        selectors,
        answers,
        &mut lent.output,
        &mut lent.marks,
    );
    match result {
        Err(refused) => {
            assert_eq!(lent.output, before);
            assert!(lent.marks.iter().all(|&mark| mark == 0));
            assert_eq!(refused.record != 0, refused.number >= 22);
            None
        }
        Ok(sites) => {
            let found = segment(image, number).unwrap();
            check_accepted(random, image, &found, &lent);
            check_other_answers(image, number, &lent);
            Some(sites)
        }
    }
}

/// The steps over all records in some order give the prepared bytes, and only
/// marked bytes differ from the stored ones.
fn check_accepted(random: &mut Random, image: &[u8], found: &Segment, lent: &Lent) {
    let start = found.start as usize;
    let list = start + found.stored as usize;
    let mut buffer = image[start..list].to_vec();
    buffer.resize(found.allocation as usize, 0);
    for (at, &byte) in lent.output.iter().enumerate() {
        let plain = buffer.get(at).copied().unwrap_or(0xEE);
        let marked = lent.marks.get(at) == Some(&1);
        assert!(marked || byte == plain);
    }
    let mut order: Vec<usize> = (0..found.records as usize).collect();
    for at in 1..order.len() {
        order.swap(at, random.under(at as u64 + 1) as usize);
    }
    for index in order {
        let at = list + 2 + 8 * index;
        let record = image[at..at + 8].try_into().unwrap();
        let answer = lent.answers[index];
        step(image, &record, answer, &lent.selectors, &mut buffer);
    }
    assert_eq!(buffer, lent.output[..buffer.len()]);
}

/// The same lists but for answers at records that aren't imports, and past
/// the record count, give the same result.
fn check_other_answers(image: &[u8], number: u32, lent: &Lent) {
    let found = segment(image, number).unwrap();
    let list = (found.start + found.stored) as usize + 2;
    let mut answers = lent.answers.clone();
    for (index, answer) in answers.iter_mut().enumerate() {
        let import = index < found.records as usize && {
            let flag = image[list + 8 * index + 1] & 3;
            flag == 1 || flag == 2
        };
        if !import {
            *answer = !*answer;
        }
    }
    let mut output = vec![0xEE; lent.output.len()];
    let mut marks = vec![0; lent.marks.len()];
    let selectors = &lent.selectors;
    let result = prepare(image, number, selectors, &answers, &mut output, &mut marks);
    assert!(result.is_ok());
    assert_eq!((output, &marks), (lent.output.clone(), &lent.marks));
}

/// A step with any record and a buffer of any length.
fn any_step(random: &mut Random, image: &[u8]) {
    let length = random.under(60);
    let mut buffer = random.bytes(length);
    for byte in &mut buffer {
        *byte &= [0, 1, 3, 0xFF][random.under(4) as usize];
    }
    let record = some_record(random, length);
    let selectors = [random.word(), random.word()];
    let given = random.under(3) as usize;
    step(
        image,
        &record,
        random.next() as u32,
        &selectors[..given],
        &mut buffer,
    );
    assert_eq!(buffer.len() as u64, length);
}

#[test]
fn two_hundred_thousand_images() {
    let mut random = Random(0x9E37_79B9_7F4A_7C15);
    let mut accepted = 0;
    let mut with_sites = 0;
    for turn in 0..200_000 {
        let mut image = if turn % 4 == 0 {
            noise(&mut random)
        } else {
            built(&mut random)
        };
        if turn % 4 >= 2 {
            spoil(&mut random, &mut image);
        }
        ask(&mut random, &image);
        any_step(&mut random, &image);
        for number in 0..4 {
            if let Some(sites) = check_prepare(&mut random, &image, number) {
                accepted += 1;
                with_sites += u32::from(sites >= 2);
            }
        }
    }
    // The images are not all refused, and many have more than one site.
    assert!(accepted > 50_000, "{accepted}");
    assert!(with_sites > 5_000, "{with_sites}");
}

#[test]
fn large_images() {
    let mut random = Random(0x2545_F491_4F6C_DD1D);
    for turn in 0..100 {
        let mut image = vec![0; 60_000 + random.under(200_000) as usize];
        for byte in &mut image {
            *byte = random.byte() & random.byte();
        }
        let small = if turn % 2 == 0 {
            built(&mut random)
        } else {
            noise(&mut random)
        };
        image[..small.len()].copy_from_slice(&small);
        // Large counts and places, all over the image.
        for field in [ENTRY, SEGMENTS, RESOURCES, RESIDENT, MODULES, IMPORTED] {
            if random.under(2) == 0 {
                put_word(&mut image, field, random.word());
            }
        }
        for field in [ENTRY_BYTES, MODULE_COUNT, NONRESIDENT_BYTES] {
            put_word(&mut image, field, random.word() >> random.under(16));
        }
        put_word(&mut image, SEGMENT_COUNT, random.word() >> 4);
        ask(&mut random, &image);
        any_step(&mut random, &image);
        for number in 0..4 {
            check_prepare(&mut random, &image, number);
        }
    }
}
