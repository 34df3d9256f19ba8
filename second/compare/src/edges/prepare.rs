//! Preparing's edges.

mod answers;
mod entries;
mod examples;
mod large;
mod lists;
mod meeting;
mod number;
mod order;
mod overlap;
mod records;
mod segment;
mod spans;
mod targets;
mod types;
mod written;

use super::fixups::{self, Module};
use super::header::{self, HeaderEdges, Images, Table};
use super::judge::{self, Edges};
use super::minimal::Minimal;
use super::{other_numbers, GREAT};
use crate::answer::Answer;
use crate::calls::{FieldsOf, Held, Prepare, Prepared, Preparing};
use reference::Refused;

type Judge = judge::Judge<Prepare>;

pub fn by_subject() -> Vec<Edges<Prepare>> {
    let own: [Edges<Prepare>; 15] = [
        ("P1 to P12", examples::edges),
        ("number (8)", number::edges),
        ("segment (9 to 11)", segment::edges),
        ("entry table (12 to 14)", entries::edges),
        ("lent lists (21)", lists::edges),
        ("types (22)", types::edges),
        ("targets (23)", targets::edges),
        ("spans (24)", spans::edges),
        ("spans that meet (25)", meeting::edges),
        ("order of refusals", order::edges),
        ("record numbers", records::edges),
        ("written bytes", written::edges),
        ("selectors and answers", answers::edges),
        ("tables over stored bytes and records", overlap::edges),
        ("the greatest counts", large::edges),
    ];
    header::by_subject().into_iter().chain(own).collect()
}

/// Output and marks are so much longer than they need be.
const MORE: usize = 3;

/// Segment 1 with lists of the exact lengths, and with output and marks that
/// reach beyond what they need.
fn asked(module: &Module) -> Preparing {
    let (output, marks) = (module.room() + MORE, module.stored.len() + MORE);
    Preparing {
        number: 1,
        selectors: Held::These(fixups::selectors(module.segments)),
        answers: Held::These(fixups::answers(module.records.len())),
        output: Held::These(Held::filled(output, 5)),
        marks: Held::These(Held::filled(marks, 0)),
    }
}

/// These bytes, with what the request's output holds behind them, and these
/// marks, with zeros behind them.
fn prepared(request: &Preparing, output: &[u8], marks: &[u8], sites: u32) -> Prepared {
    let came = request.output.items();
    let mut all_marks = marks.to_vec();
    all_marks.resize(request.marks.items().len(), 0);
    Prepared {
        sites,
        output: [output, &came[output.len()..]].concat(),
        marks: all_marks,
    }
}

fn refused(number: u32, record: u32) -> Answer<Prepared, Refused> {
    Answer::Refused(Refused { number, record })
}

impl Judge {
    /// Segment 1 becomes these bytes, as many as its allocation, and these
    /// marks, as many as its stored bytes.
    fn prepares(&mut self, name: &str, module: &Module, output: &[u8], marks: &[u8], sites: u32) {
        let lengths = (output.len(), marks.len());
        assert_eq!(lengths, (module.room(), module.stored.len()), "{name}");
        let request = asked(module);
        let expected = prepared(&request, output, marks, sites);
        self.expects(name, &module.image(), &request, &Answer::Accepted(expected));
    }

    /// Segment 1 is refused at this record; 0 is none.
    fn refuses_at(&mut self, name: &str, module: &Module, number: u32, record: u32) {
        let request = asked(module);
        self.expects(name, &module.image(), &request, &refused(number, record));
    }
}

impl HeaderEdges for Prepare {
    type Images = PrepareImages;

    fn asked() -> Preparing {
        numbered(1)
    }

    fn others() -> Vec<Preparing> {
        other_numbers().into_iter().map(numbered).collect()
    }

    const WITHOUT_TABLES: Result<FieldsOf<Self>, u32> = Err(8);
}

/// The segment of this number, with 11 bytes of output and 10 marks, and as
/// many selectors as there can be segments.
fn numbered(number: u32) -> Preparing {
    Preparing {
        number,
        selectors: Held::These(vec![0x2000; 65_535]),
        answers: Held::These(vec![0x7001_0501]),
        output: Held::These(vec![1, 2, 3, 4, 5, 6, 7, 8, 9, 10, 11]),
        marks: Held::These(vec![1, 2, 3, 4, 5, 6, 7, 8, 9, 10]),
    }
}

/// A segment for the header's edges.
pub struct PrepareImages;

impl Images for PrepareImages {
    type Fields = (u32, &'static [u8], &'static [u8]);

    /// The 8 bytes behind the record are those stored.
    fn plain() -> Minimal {
        Minimal::new()
            .length(144)
            .ne_word(0x1C, 1)
            .ne_word(0x22, 64)
            .record(128, [136, 8, 0, 8])
    }

    const NEEDED_FROM: usize = 128;

    const PLAIN: Self::Fields = (0, &[0, 0, 0, 0, 0, 0, 0, 0, 9, 10, 11], &[0; 10]);

    fn unsound() -> Minimal {
        Self::plain().record(128, [0xFFFF, 0, 0x0108, 1])
    }

    /// Of sector 0.
    fn in_header(place: usize) -> Minimal {
        Minimal::with_header_at(place)
            .ne_word(0x1C, 1)
            .ne_word(0x22, 0x34)
            .record(place + 0x34, [0, 5, 0x0010, 3])
    }

    fn fields_in_header(_: &Minimal) -> Self::Fields {
        (0, &[0, 0, 0, 4, 5, 6, 7, 8, 9, 10, 11], &[0; 10])
    }

    const READS: &'static [Table] = &[Table::Entries];
}
