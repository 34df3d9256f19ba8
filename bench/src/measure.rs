//! Times of the four programs on one input.

use crate::buffers::Buffers;
use crate::programs::{Program, CAREFUL, LIBRARY, PROGRAMS, SECOND};
use bench::answer::Answer;
use bench::inputs::Input;
use std::hint::black_box;
use std::time::{Duration, Instant};

/// The median time of one call of each program, in seconds.
pub type Times = [f64; PROGRAMS.len()];

/// How often all inputs are gone through, so that a spell of other load on the
/// machine falls on all of them.
const PASSES: usize = 6;
/// How long one input is measured in a pass, unless its fewest rounds take
/// longer.
const ENOUGH: Duration = Duration::from_millis(300);
/// The fewest rounds.
const ROUNDS: usize = 3;
/// How long the calls that are timed together take at least.
const BATCH: Duration = Duration::from_micros(20);
/// Frames that a call may have under it. Together they take up about a page.
const DEPTHS: usize = 16;

/// The times of each input, once it is known that the programs do the same.
pub fn all(inputs: &[Input]) -> Vec<Times> {
    inputs.iter().for_each(agree);
    let mut seen: Vec<_> = inputs
        .iter()
        .map(|_| PROGRAMS.map(|_| Vec::new()))
        .collect();
    for _ in 0..PASSES {
        for (input, seen) in inputs.iter().zip(&mut seen) {
            all_programs(input, seen);
        }
    }
    seen.into_iter().map(|seen| seen.map(median)).collect()
}

/// Times all programs.
fn all_programs(input: &Input, seen: &mut [Vec<f64>; PROGRAMS.len()]) {
    let mut buffers = Buffers::new(input);
    let batch = batch(input, &mut buffers);
    rounds(seen, ENOUGH, |program| {
        time(PROGRAMS[program], input, &mut buffers, batch)
    });
}

/// Times runs of several indices, one after the other in every round.
pub fn rounds<const RUNS: usize>(
    seen: &mut [Vec<f64>; RUNS],
    enough: Duration,
    mut run: impl FnMut(usize) -> f64,
) {
    let start = Instant::now();
    for round in 0.. {
        if round >= ROUNDS && start.elapsed() > enough {
            break;
        }
        for (index, seen) in seen.iter_mut().enumerate() {
            seen.push(deeper(round % DEPTHS, &mut || run(index)));
        }
    }
}

/// Asserts that the three programs accept the input and write the same.
fn agree(input: &Input) {
    let [library, second, careful] =
        [LIBRARY, SECOND, CAREFUL].map(|program| outcome(program, input));
    assert_eq!(library.0.refusal, 0, "{}: refused", input.name);
    assert!(library == second, "{}: not as the second", input.name);
    assert!(library == careful, "{}: not as the careful", input.name);
}

/// What a program answers, and the output and marks that it leaves.
pub fn outcome(program: usize, input: &Input) -> (Answer, Vec<u8>, Vec<u8>) {
    let mut output = vec![0xA5; input.allocation];
    let mut marks = vec![0x5A; input.stored.len()];
    let request = input.request(&input.image);
    let answer = PROGRAMS[program](input, &request, &mut output, &mut marks);
    (answer, output, marks)
}

/// As many calls as take long enough for the clock.
fn batch(input: &Input, buffers: &mut Buffers) -> usize {
    let mut calls = 1;
    loop {
        let seconds = time(PROGRAMS[CAREFUL], input, buffers, calls) * calls as f64;
        if seconds >= BATCH.as_secs_f64() {
            return calls;
        }
        calls *= 2;
    }
}

/// The seconds that one of so many calls takes.
pub fn time(program: Program, input: &Input, buffers: &mut Buffers, calls: usize) -> f64 {
    let request = input.request(buffers.image.bytes());
    let output = buffers.output.bytes_mut();
    let marks = buffers.marks.bytes_mut();
    let start = Instant::now();
    for _ in 0..calls {
        let answer: Answer = program(input, black_box(&request), output, marks);
        black_box((answer, &mut *output, &mut *marks));
    }
    start.elapsed().as_secs_f64() / calls as f64
}

/// Runs with so many frames on the stack, so that a local array stands at
/// another place of its page from round to round.
#[inline(never)]
fn deeper(depth: usize, run: &mut dyn FnMut() -> f64) -> f64 {
    let frame = black_box([0u8; 240]);
    let seconds = match depth {
        0 => run(),
        _ => deeper(depth - 1, run),
    };
    black_box(&frame);
    seconds
}

pub fn median(mut seconds: Vec<f64>) -> f64 {
    seconds.sort_by(f64::total_cmp);
    seconds[seconds.len() / 2]
}
