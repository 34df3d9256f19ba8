//! All segments of a file prepared, where as many as there can be name the same
//! stored bytes and records.

use super::search::longest;
use super::segments::Found;
use crate::buffers::Buffers;
use crate::library;
use bench::answer::Request;
use bench::inputs::Input;
use bench::slowest::{families, Size};
use std::time::{Duration, Instant};

/// The tables have to leave room for the place of the segment table, which is a
/// word.
const SIZE: Size = Size {
    table: 65_000,
    ..Size::LARGEST
};
/// The family of direct targets.
const DIRECT: &str = "many segments";
/// The segments that are prepared, spread over the file, unless they take long.
const PREPARED: usize = 100;
const LONG: Duration = Duration::from_secs(20);

/// Prints a line for the slowest segment, and one for direct targets if they are
/// among those that were found.
pub fn table(found: &[Found]) {
    println!(
        "\nAll {} segments of a file with the same bytes and records\n",
        SIZE.segments
    );
    println!("| Segment | Image, bytes | Prepared | ms each | s for all |");
    println!("|---|---|---|---|---|");
    let order = |one: &&Found, other: &&Found| one.seconds.total_cmp(&other.seconds);
    let slowest = found.iter().max_by(order);
    let direct = found.iter().find(|found| found.family == DIRECT);
    let slowest = slowest.filter(|found| found.family != DIRECT);
    direct.into_iter().chain(slowest).for_each(line);
}

fn line(found: &Found) {
    let input = input(found);
    let (prepared, seconds) = prepare(&input);
    println!(
        "| {}: {} | {} | {prepared} | {:.2} | {:.0} |",
        found.family,
        input.name,
        input.image.len(),
        1e3 * seconds,
        seconds * SIZE.segments as f64
    );
}

/// The same variant, with the types that take longest.
fn input(found: &Found) -> Input {
    let families = families(SIZE);
    let family = families.iter().find(|family| family.name == found.family);
    let family = family.expect("the families are the same");
    let mut variants = family.variants.iter();
    let variant = variants.find(|variant| variant.name == found.variant);
    let variant = variant.expect("a smaller table has the same variants");
    let types = longest(variant, &family.types);
    variant.in_every_segment(types, SIZE.segments)
}

/// How many segments were prepared, and the seconds that each took.
fn prepare(input: &Input) -> (usize, f64) {
    let mut buffers = Buffers::new(input);
    let numbers = (1..=SIZE.segments).step_by(SIZE.segments / PREPARED);
    let (mut prepared, start) = (0, Instant::now());
    for number in numbers {
        if prepared == PREPARED || start.elapsed() > LONG {
            break;
        }
        let request = Request {
            number: number as u32,
            ..input.request(buffers.image.bytes())
        };
        let (output, marks) = (buffers.output.bytes_mut(), buffers.marks.bytes_mut());
        let answer = library::prepare(&request, output, marks);
        assert_eq!(answer.refusal, 0, "{}: refused", input.name);
        prepared += 1;
    }
    (prepared, start.elapsed().as_secs_f64() / prepared as f64)
}
