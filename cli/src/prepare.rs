//! `nemod prepare`: a segment as it is loaded.

mod too_short;

use crate::arguments::Arguments;
use crate::delivery::Delivery;
use crate::dump::{Dump, Style};
use crate::failure::Failure;
use crate::lists;
use crate::numbers::count;
use crate::output::Output;
use crate::read;
use crate::status::Status;
use parchgable::{Image, Prepared, Refusal, Refused};

/// A segment to prepare, and what is given for it.
struct Request<'a> {
    image: Image<'a>,
    number: u32,
    selectors: Vec<u16>,
    answers: Vec<u32>,
}

pub fn run(arguments: &Arguments, output: &mut Output) -> Result<Status, Failure> {
    let (delivery, show) = wanted(arguments)?;
    let number = arguments.number(arguments.operand(1))?;
    let selectors = lists::of_option(arguments, "--selectors", u16::MAX.into())?;
    let answers = lists::of_option(arguments, "--answers", u32::MAX)?;
    let file = read::needed(arguments.operand(0))?;
    delivery.spares(&file)?;
    let request = Request {
        image: Image::new(&file.bytes),
        number,
        selectors: selectors.into_iter().map(|word| word as u16).collect(),
        answers,
    };
    match request.prepared() {
        Ok(prepared) => {
            let text = |output: &mut Output| request.tell(&prepared, show, output);
            delivery.deliver(&prepared.bytes, output, text)?;
            Ok(Status::Accepted)
        }
        Err(refused) if refused.refusal == Refusal::TooLittleLent => Err(request.too_short()),
        Err(refused) => {
            delivery.tell(refused, output)?;
            Ok(Status::Refused)
        }
    }
}

/// Where the bytes go, and whether they are shown.
fn wanted(arguments: &Arguments) -> Result<(Delivery<'_>, bool), Failure> {
    let (delivery, show) = (Delivery::of(arguments), arguments.has("--show"));
    match (&delivery, show) {
        (Delivery::Nowhere, false) => Err(arguments.wrong("give --output, --show or both")),
        (Delivery::Output, true) => {
            Err(arguments.wrong("--output - and --show both write to standard output"))
        }
        _ => Ok((delivery, show)),
    }
}

impl Request<'_> {
    fn prepared(&self) -> Result<Prepared, Refused> {
        let Request { number, .. } = *self;
        self.image.prepared(number, &self.selectors, &self.answers)
    }

    fn tell(&self, prepared: &Prepared, show: bool, output: &mut Output) -> Result<(), Failure> {
        if show {
            self.show(prepared, output)?;
        }
        writeln!(output, "{}", count(prepared.sites, "site"))
    }

    fn show(&self, prepared: &Prepared, output: &mut Output) -> Result<(), Failure> {
        let segment = self.image.segment(self.number);
        let dump = Dump {
            bytes: &prepared.bytes,
            // A prepared segment is an accepted one.
            stored: segment.map_or(&[], |segment| segment.stored),
            marks: &prepared.marks,
            style: Style::of_output(),
        };
        for line in dump.lines() {
            writeln!(output, "{line}")?;
        }
        Ok(())
    }
}
