//! The step, and that steps in every order give the prepared bytes.

use crate::build::*;
use crate::examples::P10;
use reference::step;

/// One step in a buffer of these bytes, with selectors 2000h and 2001h.
fn stepped(image: &[u8], record: [u8; 8], answer: u32, buffer: &[u8]) -> Vec<u8> {
    let mut buffer = buffer.to_vec();
    step(image, &record, answer, &[0x2000, 0x2001], &mut buffer);
    buffer
}

/// A module with what targets need. Its segments' own bytes are of no matter.
fn tables() -> Build {
    Build {
        segments: vec![plain(&[7]), plain(&[7])],
        entry: P10.to_vec(),
        modules: vec![0],
        imported: b"\x00\x03USR".to_vec(),
        ..Build::default()
    }
}

#[test]
fn a_chain_in_the_buffer() {
    let image = tables().image();
    let buffer = [0x00, 0x00, 0x06, 0x00, 0xAA, 0xBB, 0xFF, 0xFF];
    let done = stepped(&image, chained(OFFSET, 2), 0, &buffer);
    assert_eq!(done, [0x00, 0x00, 0x34, 0x12, 0xAA, 0xBB, 0x34, 0x12]);
    let done = stepped(&image, chained(FAR, 2), 0, &buffer);
    // The second site's span passes the buffer, which ends the step there.
    assert_eq!(done, [0x00, 0x00, 0x34, 0x12, 0x00, 0x20, 0xFF, 0xFF]);
}

#[test]
fn the_next_site_is_read_before_the_bytes_are_written() {
    // Were it read after, the offset 0006h would lead to 6 again and again.
    let image = tables().image();
    let buffer = [2, 0, 4, 0, 0xFF, 0xFF, 0xFF, 0xFF];
    let offset = record(OFFSET, 0, 0, 1, 6);
    let done = stepped(&image, offset, 0, &buffer);
    assert_eq!(done, [6, 0, 6, 0, 6, 0, 0xFF, 0xFF]);
}

#[test]
fn additive_steps_add_to_what_the_buffer_holds() {
    let image = tables().image();
    let once = stepped(&image, additive(OFFSET, 1), 0, &[0; 4]);
    assert_eq!(once, [0, 0x34, 0x12, 0]);
    let twice = stepped(&image, additive(OFFSET, 1), 0, &once);
    assert_eq!(twice, [0, 0x68, 0x24, 0]);
    let low = stepped(&image, additive(LOW, 3), 0, &[0, 0, 0, 0xFF]);
    assert_eq!(low, [0, 0, 0, 0x33]);
    let far = stepped(&image, additive(FAR, 0), 0, &[0xFF; 4]);
    assert_eq!(far, [0x33, 0x12, 0x00, 0x20]);
    let selector = stepped(&image, additive(SELECTOR, 0), 0, &[0xFF; 4]);
    assert_eq!(selector, [0x00, 0x20, 0xFF, 0xFF]);
}

#[test]
fn spans_at_the_end_of_the_buffer() {
    let image = tables().image();
    for (type_byte, span, chained_span) in [(LOW, 1, 2), (SELECTOR, 2, 2), (FAR, 4, 4)] {
        let buffer = [0xFF; 9];
        let changes = |record| stepped(&image, record, 0, &buffer) != buffer;
        assert!(changes(additive(type_byte, 9 - span)));
        assert!(!changes(additive(type_byte, 10 - span)));
        assert!(changes(chained(type_byte, 9 - chained_span)));
        assert!(!changes(chained(type_byte, 10 - chained_span)));
    }
    let nothing: [u8; 0] = [];
    assert_eq!(stepped(&image, additive(LOW, 0), 0, &[]), nothing);
    assert_eq!(stepped(&image, chained(LOW, 0), 0, &[]), nothing);
    assert_eq!(stepped(&image, chained(LOW, 0), 0, &[0xFF]), [0xFF]);
}

#[test]
fn at_most_as_many_sites_as_the_buffer_has_bytes() {
    // Sites 0, 0, 1: the third is written, a fourth at 0 would undo it.
    let image = tables().image();
    let offset = record(OFFSET, 0, 0, 1, 1);
    assert_eq!(stepped(&image, offset, 0, &[0, 0, 0]), [1, 1, 0]);
}

#[test]
fn a_cycle_ends() {
    let image = tables().image();
    let done = stepped(&image, record(OFFSET, 0, 0, 1, 0), 0, &[0; 65_536]);
    assert_eq!(done, vec![0; 65_536]);
    let done = stepped(&image, chained(OFFSET, 0), 0, &[2, 0, 0, 0]);
    assert_eq!(done, [0x34, 0x12, 0x34, 0x12]);
}

#[test]
fn a_site_of_ffff_in_a_full_buffer() {
    let image = tables().image();
    let buffer = vec![0xFF; 65_536];
    let done = stepped(&image, additive(LOW, 0xFFFF), 0, &buffer);
    assert_eq!(done[65_535], 0x33);
    assert_eq!(stepped(&image, chained(LOW, 0xFFFF), 0, &buffer), buffer);
    // In a longer buffer a next site of FFFFh still ends the step, and a first
    // one is a site.
    let buffer = vec![0xFF; 65_540];
    let done = stepped(&image, chained(OFFSET, 0), 0, &buffer);
    assert_eq!(done[..2], [0x34, 0x12]);
    assert_eq!(done[2..], buffer[2..]);
    let done = stepped(&image, chained(OFFSET, 0xFFFF), 0, &buffer);
    assert_eq!(done[65_535..], [0x34, 0x12, 0xFF, 0xFF, 0xFF]);
}

#[test]
fn the_step_is_limited_by_the_allocation() {
    // Preparing gives 24 for the same site.
    let mut build = with(&[0xFF; 2], &[additive(OFFSET, 2)]);
    build.segments[0].allocation = Some(4);
    let image = build.image();
    assert_eq!(refusal(&image), (24, 1));
    let done = stepped(&image, additive(OFFSET, 2), 0, &[0xFF, 0xFF, 0, 0]);
    assert_eq!(done, [0xFF, 0xFF, 0x34, 0x12]);
}

#[test]
fn what_changes_nothing() {
    let image = tables().image();
    let unchanged = [
        record(OFFSET, 3, 0, 1, 9),
        record(OFFSET, 7, 0, 1, 9),
        record(1, 0, 0, 1, 9),
        record(4, 4, 0, 1, 9),
        record(6, 1, 0, 1, 9),
        record(OFFSET, 0, 0, 0, 9),
        record(OFFSET, 0, 0, 3, 9),
        record(OFFSET, 0, 0, 255, 2),
        record(OFFSET, 0, 0, 255, 5),
        record(OFFSET, 1, 0, 0, 9),
        record(OFFSET, 1, 0, 2, 9),
        record(OFFSET, 2, 0, 1, 0),
        record(OFFSET, 2, 0, 1, 0xFFFF),
    ];
    for record in unchanged {
        assert_eq!(stepped(&image, record, 5, &[0xFF; 4]), [0xFF; 4]);
    }
}

/// One record for each way a target resolves, and what it writes at 0.
fn resolving() -> [([u8; 8], [u8; 4]); 4] {
    [
        (record(FAR, 0, 0, 2, 9), [9, 0, 0x01, 0x20]),
        (record(FAR, 0, 0, 255, 4), [0x20, 0, 0x01, 0x20]),
        (record(FAR, 1, 0, 1, 9), [0xD4, 0xC3, 0xB2, 0xA1]),
        (record(FAR, 2, 0, 1, 1), [0xD4, 0xC3, 0xB2, 0xA1]),
    ]
}

/// Which of `resolving` change the buffer, each then by its own bytes.
fn resolved(image: &[u8], selectors: &[u16]) -> [bool; 4] {
    resolving().map(|(record, bytes)| {
        let mut buffer = [0xFF; 4];
        step(image, &record, 0xA1B2_C3D4, selectors, &mut buffer);
        assert!(buffer == bytes || buffer == [0xFF; 4]);
        buffer == bytes
    })
}

#[test]
fn targets_that_resolve() {
    let selectors = [0x2000, 0x2001];
    assert_eq!(resolved(&tables().image(), &selectors), [true; 4]);
    // With an unsound header nothing resolves.
    let mut image = tables().image();
    put_word(&mut image, SHIFT, 16);
    assert_eq!(resolved(&image, &selectors), [false; 4]);
    assert_eq!(resolved(&[], &selectors), [false; 4]);
    // With an unsound entry table ordinals don't.
    let mut build = tables();
    build.entry.pop();
    let but_ordinals = [true, false, true, true];
    assert_eq!(resolved(&build.image(), &selectors), but_ordinals);
    // A segment above the selector list's length doesn't; imports do.
    let imports = [false, false, true, true];
    assert_eq!(resolved(&tables().image(), &[0x2000]), imports);
    assert_eq!(resolved(&tables().image(), &[]), imports);
}

#[test]
fn segments_own_rows_are_of_no_matter() {
    let mut image = tables().image();
    let first = row(&image, 1);
    image[first..first + 16].fill(0xFF);
    assert_eq!(resolved(&image, &[0x2000, 0x2001]), [true; 4]);
}

/// All orders of 0 to `count` - 1.
fn orders(count: usize) -> Vec<Vec<usize>> {
    if count == 0 {
        return vec![vec![]];
    }
    let mut all = Vec::new();
    for order in orders(count - 1) {
        for at in 0..count {
            let mut longer = order.clone();
            longer.insert(at, count - 1);
            all.push(longer);
        }
    }
    all
}

/// Steps over all records in all orders give the prepared bytes.
fn every_order(build: &Build) {
    let image = build.image();
    let done = prepared(&image).unwrap();
    let segment = &build.segments[0];
    for order in orders(segment.records.len()) {
        let mut buffer = segment.stored.clone();
        buffer.resize(done.bytes.len(), 0);
        for index in order {
            let selectors: Vec<u16> = (1..=300).map(selector).collect();
            let own = answer(index as u32 + 1);
            let record = &segment.records[index];
            step(&image, record, own, &selectors, &mut buffer);
        }
        assert_eq!(buffer, done.bytes);
    }
}

#[test]
fn steps_in_every_order() {
    let lists: [(&[u8], &[[u8; 8]]); 6] = [
        (&[9, 8, 7], &[]),
        (&[0, 0, 6, 0, 0xAA, 0xBB, 0xFF, 0xFF], &[chained(OFFSET, 2)]),
        (
            &[4, 0, 0xFF, 0xFF, 0xFF, 0xFF, 1, 2],
            &[chained(OFFSET, 0), chained(LOW, 2), additive(SELECTOR, 6)],
        ),
        (
            &[6, 0, 2, 0, 0xFE, 0xFF, 0xFF, 0xFF, 3, 3, 0xFF, 0xFF],
            &[
                record(LOW, 0, 0, 1, 0xFF),
                record(FAR, 5, 2, 1, 0),
                record(SELECTOR, 2, 10, 2, 1),
                record(LOW, 4, 8, 255, 4),
            ],
        ),
        (
            &[0xFF; 16],
            &[
                record(FAR, 0, 0, 255, 1),
                record(FAR, 4, 4, 2, 5),
                record(OFFSET, 3, 8, 0, 0),
                record(FAR, 6, 9, 1, 1),
            ],
        ),
        (
            &[5, 0, 9, 9, 9, 0xFF, 0xFF, 9, 9, 11, 0, 0xFF, 0xFF],
            &[
                record(FAR, 0, 5, 1, 0x0909),
                record(OFFSET, 0, 9, 2, 0x0707),
                record(OFFSET, 4, 0, 2, 0xFFFF),
                record(LOW, 4, 2, 2, 0xFF),
            ],
        ),
    ];
    for (stored, records) in lists {
        let mut build = tables();
        build.modules = vec![0, 0];
        build.segments[0] = with(stored, records).segments[0].clone();
        build.segments[0].allocation = Some(stored.len() as u16 + 3);
        every_order(&build);
    }
}

#[test]
fn tables_may_overlap_stored_bytes_and_records() {
    // The stored bytes are the whole file so far, headers included; the step
    // reads its tables from the image, not from the buffer.
    let mut image = tables().image();
    let length = image.len() - 2;
    let at = row(&image, 1);
    put_word(&mut image, at, 2);
    put_word(&mut image, at + 2, length as u16);
    put_word(&mut image, at + 4, 0x0100);
    put_word(&mut image, at + 6, length as u16);
    // On the NE header's place for the entry table, and on the entry table.
    let entry = NE + usize::from(word(&image, ENTRY));
    let records = [
        record(FAR, 4, (ENTRY - 2) as u16, 255, 4),
        record(OFFSET, 4, (entry - 2 + 13) as u16, 255, 4),
    ];
    image.extend([2, 0]);
    image.extend(records.concat());
    let done = prepared(&image).unwrap();
    for order in orders(2) {
        let mut buffer = image[2..2 + length].to_vec();
        for index in order {
            buffer = stepped(&image, records[index], 0, &buffer);
        }
        assert_eq!(buffer, done.bytes);
    }
    assert_eq!(done.sites, 2);
}
