//! Preparing: what is written, what is refused, and steps.

use crate::module::{put_word, Module, NE, SEGMENTS};
use parchgable::{Image, Prepared, Refusal, Refused};

const SELECTORS: [u16; 2] = [0x2000, 0x3000];
const ANSWERS: [u32; 2] = [0x4000_0003, 0];
/// The second segment: FFFEh and 3 are 1, with no carry; 20h is a low byte.
const BYTES: [u8; 6] = [1, 0, 0, 0x40, 0x20, 0xFF];
const MARKS: [u8; 6] = [1; 6];

/// What is refused, with its record.
fn refused(number: u32, record: Option<u32>) -> Refused {
    let refusal = Refusal::try_from(number).expect("a refusal's number");
    Refused { refusal, record }
}

#[test]
fn a_segment_in_memory_of_its_own() {
    let image = Module::sample().image();
    let image = Image::new(&image);
    let first = Prepared {
        bytes: vec![0, 0, 0x34, 0x12, 0xAA, 0xBB, 0x34, 0x12, 0, 0],
        marks: vec![0, 0, 1, 1, 0, 0, 1, 1],
        sites: 2,
    };
    let second = Prepared {
        bytes: BYTES.to_vec(),
        marks: MARKS.to_vec(),
        sites: 2,
    };
    assert_eq!(image.prepared(1, &SELECTORS, &ANSWERS), Ok(first));
    assert_eq!(image.prepared(2, &SELECTORS, &ANSWERS), Ok(second));
}

#[test]
fn a_segment_in_lent_memory() {
    let image = Module::sample().image();
    let (mut output, mut marks) = ([0x5A; 8], [0x5A; 8]);
    let done = Image::new(&image).prepare(2, &SELECTORS, &ANSWERS, &mut output, &mut marks);
    assert_eq!(done, Ok(2));
    assert_eq!(output, [1, 0, 0, 0x40, 0x20, 0xFF, 0x5A, 0x5A]);
    assert_eq!(marks, [1, 1, 1, 1, 1, 1, 0, 0]);
}

#[test]
fn a_refusal_leaves_the_output_and_clears_the_marks() {
    let mut image = Module::sample().image();
    image[288] = 4; // the type of the second record
    let (mut output, mut marks) = ([0x5A; 8], [0x5A; 8]);
    let done = Image::new(&image).prepare(2, &SELECTORS, &ANSWERS, &mut output, &mut marks);
    assert_eq!(done, Err(refused(22, Some(2))));
    assert_eq!((output, marks), ([0x5A; 8], [0; 8]));
}

#[test]
fn too_little_is_lent() {
    let image = Module::sample().image();
    let ask = |selectors: usize, answers: usize, output: usize, marks: usize| {
        let (selectors, answers) = (&SELECTORS[..selectors], &ANSWERS[..answers]);
        let (output, marks) = (&mut [0; 6][..output], &mut [0; 6][..marks]);
        Image::new(&image).prepare(2, selectors, answers, output, marks)
    };
    assert_eq!(ask(2, 2, 6, 6), Ok(2));
    assert_eq!(ask(1, 2, 6, 6), Err(refused(21, None)));
    assert_eq!(ask(2, 1, 6, 6), Err(refused(21, None)));
    assert_eq!(ask(2, 2, 5, 6), Err(refused(21, None)));
    assert_eq!(ask(2, 2, 6, 5), Err(refused(21, None)));
}

/// Prepares the second segment of the sample after a change.
fn after(change: impl Fn(&mut [u8])) -> Result<u32, Refused> {
    let mut image = Module::sample().image();
    change(&mut image);
    let done = Image::new(&image).prepared(2, &SELECTORS, &ANSWERS);
    done.map(|prepared| prepared.sites)
}

/// The place of the second segment's first record, and of its second.
const FIRST: usize = 280;
const SECOND: usize = 288;

#[test]
fn records_are_refused() {
    let put = |at: usize, byte: u8| after(|image| image[at] = byte);
    assert_eq!(put(FIRST, 1), Err(refused(22, Some(1))));
    assert_eq!(put(SECOND, 1), Err(refused(22, Some(2))));
    assert_eq!(put(FIRST + 4, 3), Err(refused(23, Some(1))));
    assert_eq!(put(SECOND + 6, 3), Err(refused(23, Some(2))));
    assert_eq!(put(FIRST + 2, 3), Err(refused(24, Some(1))));
    assert_eq!(put(SECOND + 2, 5), Err(refused(24, Some(2))));
    assert_eq!(put(SECOND + 2, 3), Err(refused(25, Some(2))));
    assert_eq!(put(SECOND + 2, 4), Ok(2));
}

#[test]
fn what_stands_before_the_records_is_refused_in_order() {
    let row = |at: usize, word: u16| after(|image| put_word(image, SEGMENTS + 8 + at, word));
    assert_eq!(row(0, 0xFFFF), Err(refused(9, None)));
    assert_eq!(row(4, 8), Err(refused(10, None)));
    assert_eq!(row(6, 5), Err(refused(11, None)));
    let header = |at: usize, word: u16| after(|image| put_word(image, NE + at, word));
    assert_eq!(header(0x32, 16), Err(refused(6, None)));
    assert_eq!(header(0x1C, 1), Err(refused(8, None)));
    // The entry table comes before the segment that is iterated.
    let both = after(|image| {
        put_word(image, SEGMENTS + 12, 8);
        put_word(image, NE + 0x06, 15);
    });
    assert_eq!(both, Err(refused(12, None)));
}

/// The second segment's stored bytes after a step for each record, in this
/// order.
fn stepped(order: [usize; 2]) -> Vec<u8> {
    let bytes = Module::sample().image();
    let image = Image::new(&bytes);
    let mut buffer = image.segment(2).expect("a sound segment").stored.to_vec();
    for index in order {
        let record = bytes[FIRST + 8 * index..][..8].try_into();
        let record = record.expect("8 bytes");
        image.step(record, ANSWERS[index], &SELECTORS, &mut buffer);
    }
    buffer
}

#[test]
fn steps_in_both_orders() {
    assert_eq!(stepped([0, 1]), BYTES);
    assert_eq!(stepped([1, 0]), BYTES);
}

#[test]
fn a_step_without_an_image_changes_nothing() {
    let mut buffer = BYTES;
    let record = [5, 0, 0, 0, 1, 0, 0x34, 0x12];
    Image::new(&[]).step(&record, 0, &SELECTORS, &mut buffer);
    Image::new(&[]).step(&record, 0, &[], &mut []);
    assert_eq!(buffer, BYTES);
}
