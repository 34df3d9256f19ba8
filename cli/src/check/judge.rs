//! Judging an image: everything of it that document 01 reads.

use super::progress::Progress;
use super::verdict::{Part, Verdict};
use super::work::Work;
use crate::arguments::Arguments;
use crate::tables;
use parchgable::{Header, Image, Refusal, Refused};

/// The most bytes that a segment takes, stored or in memory.
const LARGEST: usize = 65_536;
/// The most fixup records that a segment has.
const RECORDS: usize = 65_535;
/// The most segments that a module has.
const SEGMENTS: usize = 65_535;

/// What is checked.
#[derive(Clone, Copy, PartialEq, Eq)]
pub enum Scope {
    All,
    /// The header, the entry table and the segments: what a rack loads.
    Segments,
}

/// Lists and room for any segment, made once: a file may have 65,535 segments.
///
/// The selectors and answers are zeros. Which refusal a segment gets, and at
/// which record, how many sites it has and what is marked depend on the lists'
/// lengths only, and not on what is in them: that is the theorem
/// `same_but_bytes` in `crates/prepare/proofs/AnyLists.antt`.
pub struct Judge {
    scope: Scope,
    work: Work,
    selectors: Vec<u16>,
    answers: Vec<u32>,
    output: Vec<u8>,
    marks: Vec<u8>,
}

/// An image whose header is accepted, and the work that is left for it.
struct Module<'a> {
    image: Image<'a>,
    header: Header,
    work: Work,
}

/// There is not enough work left for this part.
struct Stopped(Part);

impl Scope {
    pub fn of(arguments: &Arguments) -> Scope {
        match arguments.has("--segments") {
            true => Scope::Segments,
            false => Scope::All,
        }
    }
}

impl Judge {
    /// Does at most so much work on each image.
    pub fn new(scope: Scope, work: Work) -> Self {
        Judge {
            scope,
            work,
            selectors: vec![0; SEGMENTS],
            answers: vec![0; RECORDS],
            output: vec![0; LARGEST],
            marks: vec![0; LARGEST],
        }
    }

    /// Finds every fault of an image, as long as there is work left.
    pub fn image(&mut self, bytes: &[u8], progress: &mut Progress) -> Verdict {
        let mut verdict = Verdict::default();
        let image = Image::new(bytes);
        match image.header() {
            Err(refusal) => verdict.add(Part::Header, refusal.into()),
            Ok(header) => {
                let work = self.work;
                let module = Module {
                    image,
                    header,
                    work,
                };
                let judged = self.module(module, &mut verdict, progress);
                verdict.stopped = judged.err().map(|stopped| stopped.0);
            }
        }
        verdict
    }

    fn module(
        &mut self,
        mut module: Module,
        verdict: &mut Verdict,
        progress: &mut Progress,
    ) -> Result<(), Stopped> {
        verdict.segments = module.header.segments;
        let entries = tables::entries(module.image);
        if let Err(refusal) = entries {
            verdict.add(Part::Entries, refusal.into());
        }
        if self.scope == Scope::All {
            module.judge_names(verdict);
            module.judge_resources(verdict)?;
        }
        for number in 1..=module.header.segments {
            progress.segment(number, module.header.segments);
            let judged = match entries {
                Ok(()) => self.segment(&mut module, number)?,
                // Its fixups can't be judged then, but its record can.
                Err(_) => module.record(number)?,
            };
            match judged {
                Ok(sites) => verdict.sites += u64::from(sites),
                Err(why) => verdict.add(Part::Segment(number), why),
            }
        }
        Ok(())
    }

    /// Prepares a segment and gives the number of its sites.
    fn segment(
        &mut self,
        module: &mut Module,
        number: u32,
    ) -> Result<Result<u32, Refused>, Stopped> {
        let image = module.image;
        let Ok(segment) = image.segment(number) else {
            return module.record(number);
        };
        if !module.work.takes_segment(&module.header, &segment) {
            return Err(Stopped(Part::Segment(number)));
        }
        let output = &mut self.output[..segment.allocation as usize];
        let marks = &mut self.marks[..segment.stored.len()];
        let prepared = image.prepare(number, &self.selectors, &self.answers, output, marks);
        // Where a record is bad, the sites before it are at most as many as bytes.
        let sites = prepared.map_or(segment.stored.len() as u64, u64::from);
        module.work.take_sites(sites);
        Ok(prepared)
    }
}

impl Module<'_> {
    fn judge_names(&self, verdict: &mut Verdict) {
        if let Err(refusal) = tables::names(self.image) {
            verdict.add(Part::Names, refusal.into());
        }
        for number in 1..=self.header.modules {
            if let Err(refusal) = self.image.module(number) {
                verdict.add(Part::Module(number), refusal.into());
            }
        }
    }

    fn judge_resources(&mut self, verdict: &mut Verdict) -> Result<(), Stopped> {
        if let Err(refusal) = tables::resources(self.image) {
            verdict.add(Part::ResourceTable, refusal.into());
            return Ok(());
        }
        let blocks = tables::blocks_of_resources(self.image, &self.header);
        for number in 1.. {
            if !self.work.takes_resource(blocks) {
                return Err(Stopped(Part::Resource(number)));
            }
            match self.image.resource(number) {
                Ok(_) => {}
                Err(Refusal::NoSuchNumber) => break,
                Err(refusal) => verdict.add(Part::Resource(number), refusal.into()),
            }
        }
        Ok(())
    }

    /// Looks at a segment's record alone.
    fn record(&mut self, number: u32) -> Result<Result<u32, Refused>, Stopped> {
        match self.work.takes_record() {
            true => Ok(self.image.segment(number).map(|_| 0).map_err(Refused::from)),
            false => Err(Stopped(Part::Segment(number))),
        }
    }
}
