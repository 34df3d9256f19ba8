//! The four programs, behind one signature.

use crate::library;
use bench::answer::{Answer, Request};
use bench::careful;
use bench::inputs::Input;
use bench::second;

/// Prepares the input's segment. The request has the input's image where it
/// stands for the measuring.
pub type Program = fn(&Input, &Request, &mut [u8], &mut [u8]) -> Answer;

pub const LIBRARY: usize = 0;
pub const SECOND: usize = 1;
pub const CAREFUL: usize = 2;
pub const PLAIN_COPY: usize = 3;

/// All of them, each at its index.
pub const PROGRAMS: [Program; 4] = [
    |_, request, output, marks| library::prepare(request, output, marks),
    |_, request, output, marks| second::prepare(request, output, marks),
    |_, request, output, marks| careful::prepare(request, output, marks),
    plain_copy,
];

/// Writes as many bytes as preparing has to, and checks nothing: the stored
/// bytes, zeros behind them, zero marks.
fn plain_copy(input: &Input, request: &Request, output: &mut [u8], marks: &mut [u8]) -> Answer {
    let stored = &request.image[input.stored.clone()];
    let (front, rest) = output.split_at_mut(stored.len());
    front.copy_from_slice(stored);
    rest.fill(0);
    marks.fill(0);
    Answer::accepted(0)
}
