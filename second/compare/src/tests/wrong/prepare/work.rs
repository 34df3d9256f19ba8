//! The work on the records, with a fault to choose.

use crate::calls::Preparing;
use crate::stated;
use crate::tests::wrong::fixups::{word, Fault, Fixup, Target};
use reference::Refused;

pub struct Work<'a> {
    image: &'a [u8],
    request: &'a Preparing,
    fault: Fault,
    stored: &'a [u8],
    /// Stored bytes and zeros, changed as the work goes on.
    bytes: Vec<u8>,
    /// The number of the record whose span a byte is in, else 0.
    owners: Vec<u32>,
    pub sites: u32,
    /// The number of the record in hand.
    pub record: u32,
    imports: usize,
}

impl<'a> Work<'a> {
    pub fn new(image: &'a [u8], request: &'a Preparing, fault: Fault) -> Self {
        let segment = stated::segment(image, request.number);
        let stored = segment.as_ref().map(|segment| segment.stored_bytes(image));
        let stored = stored.unwrap_or_default();
        let mut bytes = stored.to_vec();
        let allocation = segment.map_or(0, |segment| segment.allocation);
        bytes.resize(allocation.max(stored.len()), 0);
        Work {
            image,
            request,
            fault,
            stored,
            owners: vec![0; bytes.len()],
            bytes,
            sites: 0,
            record: 0,
            imports: 0,
        }
    }

    fn is(&self, fault: Fault) -> bool {
        self.fault == fault
    }

    /// The site count.
    pub fn records(&mut self) -> Result<u32, Refused> {
        let segment = stated::segment(self.image, self.request.number);
        let mut records = segment.map_or(Vec::new(), |segment| segment.record_bytes(self.image));
        let count = records.len() as u32;
        match self.fault {
            Fault::FirstRecordOnly => records.truncate(1),
            Fault::LastRecordLeftOut => records.truncate(records.len().saturating_sub(1)),
            _ => {}
        }
        let fixups: Vec<Fixup> = records.iter().map(|r| Fixup::of(r, self.fault)).collect();
        self.ahead(&fixups)?;
        for fixup in &fixups {
            self.record += 1;
            self.one(fixup).map_err(|number| self.refused(number))?;
        }
        Ok(match self.fault {
            Fault::SitesAreRecords => count,
            _ => self.sites,
        })
    }

    fn refused(&self, number: u32) -> Refused {
        Refused {
            number,
            record: self.record,
        }
    }

    /// Checks that a fault has before any site.
    fn ahead(&mut self, fixups: &[Fixup]) -> Result<(), Refused> {
        for (index, fixup) in fixups.iter().enumerate() {
            let number = match self.fault {
                Fault::AllTypesFirst if !fixup.is_known() => 22,
                Fault::AllTargetsFirst if fixup.relation != 3 => match self.target(fixup, index) {
                    None if fixup.is_known() => 23,
                    _ => continue,
                },
                _ => continue,
            };
            let record = index as u32 + 1;
            return Err(Refused { number, record });
        }
        Ok(())
    }

    fn target(&self, fixup: &Fixup, index: usize) -> Option<Target> {
        let answer = self.request.answers.items().get(index).copied();
        let selectors = self.request.selectors.items();
        fixup.target(self.image, answer.unwrap_or(0), selectors)
    }

    fn one(&mut self, fixup: &Fixup) -> Result<(), u32> {
        let index = match self.fault {
            Fault::AnswersByImports => self.imports,
            _ => self.record as usize - 1,
        };
        self.imports += usize::from(matches!(fixup.relation, 1 | 2));
        let target = self.target(fixup, index);
        let unresolved = target.is_none() && fixup.relation != 3;
        if self.is(Fault::TargetBeforeType) && unresolved {
            return Err(23);
        }
        if !fixup.is_known() {
            return Err(22);
        }
        if fixup.relation == 3 {
            self.sites += u32::from(self.is(Fault::SitesWithOsFixups));
            return Ok(());
        }
        self.follow(fixup, target.ok_or(23u32)?)
    }

    fn follow(&mut self, fixup: &Fixup, target: Target) -> Result<(), u32> {
        let mut site = fixup.site;
        let chained = !fixup.additive || self.is(Fault::AdditiveIsChained);
        if self.is(Fault::EndIsEmptyChain) && chained && site == 0xFFFF {
            return Ok(());
        }
        loop {
            self.take(fixup, site)?;
            let next = match self.fault {
                Fault::ChainFromTheBuffer => word(&self.bytes, site),
                _ => word(self.stored, site),
            };
            fixup.write(&mut self.bytes, site, target);
            if !chained || self.is(Fault::FirstSiteOnly) || next == 0xFFFF {
                return Ok(());
            }
            site = usize::from(next);
        }
    }

    /// 24, 25 and 26.
    fn take(&mut self, fixup: &Fixup, site: usize) -> Result<(), u32> {
        let limit = match self.fault {
            Fault::SpansByAllocation => self.bytes.len(),
            _ => self.stored.len(),
        };
        let end = site + fixup.span();
        let outside = match self.fault {
            Fault::SumOfSiteWraps => end % 65_536 > limit,
            _ => end > limit,
        };
        let meets = self.meets(site, end);
        if self.is(Fault::MeetingFirst) && meets {
            return Err(25);
        }
        match (outside, meets, self.sites >= 65_536) {
            (true, _, _) => return Err(24),
            (_, true, _) => return Err(25),
            (_, _, true) => return Err(26),
            _ => self.sites += 1,
        }
        let end = match self.fault {
            Fault::MarksOfWrittenBytes if fixup.kind == 0 => site + 1,
            _ => end.min(self.owners.len()),
        };
        if site < end {
            self.owners[site..end].fill(self.record);
        }
        Ok(())
    }

    fn meets(&self, site: usize, end: usize) -> bool {
        let end = end.min(self.owners.len());
        let span = self.owners.get(site..end).unwrap_or_default();
        match self.fault {
            Fault::ChainFromTheBuffer => false,
            Fault::MeetingSeenBetweenRecordsOnly => {
                span.iter().any(|owner| ![0, self.record].contains(owner))
            }
            _ => span.iter().any(|owner| *owner != 0),
        }
    }

    /// Leaves output and marks as they are to be, but for the fault.
    pub fn deliver(&self, accepted: bool, output: &mut [u8], marks: &mut [u8]) {
        if accepted || self.is(Fault::OutputBeforeTheLastRecord) {
            self.deliver_output(output);
        }
        match self.fault {
            Fault::MarksNotCleared if !accepted => return,
            Fault::MarksPastTheStoredLeft if accepted => {}
            _ => marks.fill(0),
        }
        if accepted || self.is(Fault::MarksLeft) {
            let one = match self.fault {
                Fault::MarksOf255 => 255,
                _ => 1,
            };
            let owners = &self.owners[..self.stored.len()];
            for (mark, owner) in marks.iter_mut().zip(owners) {
                *mark = u8::from(*owner != 0) * one;
            }
        }
    }

    fn deliver_output(&self, output: &mut [u8]) {
        let written = match self.fault {
            Fault::ZerosLeft => self.stored.len(),
            Fault::OutputBeforeTheLastRecord if self.record == 0 => 0,
            _ => self.bytes.len(),
        };
        let rest = match self.fault {
            Fault::OutputPastTheAllocationCleared => 0..output.len(),
            _ => 0..0,
        };
        output[rest].fill(0);
        for (byte, value) in output.iter_mut().zip(&self.bytes[..written]) {
            *byte = *value;
        }
    }
}
