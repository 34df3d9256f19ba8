//! The step's edges.

mod chains;
mod ends;
mod examples;
mod great;
mod header;
mod nothing;
mod overlap;
mod targets;
mod types;
mod written;

use super::fixups::{self, Module, Record};
use super::judge::{self, Edges};
use super::minimal::Minimal;
use crate::answer::Answer;
use crate::calls::{Held, Step, Stepped, Stepping};

type Judge = judge::Judge<Step>;

pub fn by_subject() -> Vec<Edges<Step>> {
    vec![
        ("P1 to P9", examples::edges),
        ("types and flags", types::edges),
        ("targets", targets::edges),
        ("what a header refuses", header::edges),
        ("what changes nothing", nothing::edges),
        ("the buffer's end", ends::edges),
        ("chains and the number of sites", chains::edges),
        ("written bytes", written::edges),
        ("tables over all else", overlap::edges),
        ("great buffers", great::edges),
    ]
}

/// The tables that targets need. The segments' own bytes are of no matter.
fn tables() -> Module {
    fixups::module(&[7], &[])
}

/// The record with answer 7001h:0501h, selectors 2000h and 2001h, and a buffer
/// of these bytes.
fn asked(record: Record, buffer: &[u8]) -> Stepping {
    Stepping {
        record,
        answer: 0x7001_0501,
        selectors: Held::These(fixups::selectors(2)),
        buffer: Held::These(buffer.to_vec()),
    }
}

impl Judge {
    /// The step leaves these bytes.
    fn leaves(&mut self, name: &str, image: &Minimal, request: &Stepping, bytes: &[u8]) {
        let buffer = bytes.to_vec();
        let expected = Answer::Accepted(Stepped { buffer });
        self.expects(name, image, request, &expected);
    }

    /// The record makes these bytes of those, with the usual tables.
    fn steps(&mut self, name: &str, record: Record, before: &[u8], after: &[u8]) {
        assert_eq!(before.len(), after.len(), "{name}");
        let request = asked(record, before);
        self.leaves(name, &tables().image(), &request, after);
    }
}
