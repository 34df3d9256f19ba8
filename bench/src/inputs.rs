//! The inputs, each accepted: what is measured, and the same at other sizes, to
//! see that the time grows as the work does.

pub(crate) mod module;
pub(crate) mod noise;

use crate::answer::Request;
use module::{entry_table, record, Module, ADDITIVE, FAR, LOW_BYTE, OFFSET, SELECTOR};
use noise::Noise;
use std::ops::Range;

/// The largest segment.
const WHOLE: usize = 65_536;
/// The ordinals of the entry table, where there is one.
const ORDINALS: usize = 8_000;

/// A segment to prepare, with what its answer needs.
pub struct Input {
    /// What it is, for the table.
    pub name: String,
    /// The work that grows from input to input of this name, for those that
    /// come in several sizes.
    pub family: Option<&'static str>,
    /// How much of that work there is: bytes, sites or records.
    pub units: usize,
    /// Does it stand in the table of ratios?
    pub headline: bool,
    /// The whole module. Its segment 1 is prepared.
    pub image: Vec<u8>,
    /// A selector for each segment.
    pub selectors: Vec<u16>,
    /// An import answer for each record.
    pub answers: Vec<u32>,
    /// Where the stored bytes are in the image.
    pub stored: Range<usize>,
    /// Bytes in memory.
    pub allocation: usize,
    /// Its fixup records.
    pub records: usize,
}

impl Input {
    pub(crate) fn new(name: String, module: &Module) -> Input {
        let (image, stored) = module.image();
        Input {
            name,
            family: None,
            units: 0,
            headline: true,
            image,
            selectors: (0..module.segments as u16)
                .map(|n| n.wrapping_mul(8).wrapping_add(0x1017))
                .collect(),
            answers: (0..module.records.len() as u32)
                .map(|n| 0x2000_1000 + 8 * n)
                .collect(),
            stored,
            allocation: module.allocation,
            records: module.records.len(),
        }
    }

    fn of_family(mut self, family: &'static str, units: usize, headline: bool) -> Input {
        self.family = Some(family);
        self.units = units;
        self.headline = headline;
        self
    }

    /// The question, on a copy of the image.
    pub fn request<'a>(&'a self, image: &'a [u8]) -> Request<'a> {
        Request {
            image,
            number: 1,
            selectors: &self.selectors,
            answers: &self.answers,
        }
    }
}

/// All inputs, the headlines of a family among its sizes. A family's input of
/// one unit has its fixed costs.
pub fn all() -> Vec<Input> {
    let mut all = Vec::new();
    all.extend([16, 32, 64].map(no_records));
    all.push(part_stored());
    all.extend([1, 4_096, 8_192, 16_384, 32_768].map(shuffled));
    all.push(ascending(16_384));
    all.extend([1, 250, 500, 1_000].map(far));
    all.extend([1, 4_000, 8_000, 16_000].map(additive));
    all.extend([1, 4_000, 8_000, 16_000].map(by_ordinal));
    all.extend([true, false].map(small));
    all
}

fn no_records(kibibytes: usize) -> Input {
    let bytes = 1024 * kibibytes;
    let name = format!("{kibibytes} KiB, no records");
    Input::new(name, &Module::new(bytes)).of_family("no records, by byte", bytes, kibibytes == 64)
}

fn part_stored() -> Input {
    let mut module = Module::new(WHOLE / 2);
    module.allocation = WHOLE;
    Input::new("32 KiB of 64 KiB stored, no records".into(), &module)
}

fn ascending(sites: usize) -> Input {
    let name = format!("one offset chain of {sites} sites, ascending");
    Input::new(name, &chain(&places(sites, 2)))
}

fn shuffled(sites: usize) -> Input {
    let name = format!("one offset chain of {sites} sites, shuffled");
    let mut order = places(sites, 2);
    Noise::new(1).shuffle(&mut order);
    Input::new(name, &chain(&order)).of_family("one chain, by site", sites, sites == 16_384)
}

/// As many places, each at a multiple of the span, spread over a whole segment.
fn places(count: usize, span: usize) -> Vec<usize> {
    let distance = WHOLE / count / span * span;
    (0..count).map(|n| n * distance).collect()
}

/// One chain of offsets.
fn chain(sites: &[usize]) -> Module {
    let mut module = Module::new(WHOLE);
    let site = module.link(sites);
    module.records.push(record(OFFSET, 0, site, 2, 0x1234));
    module
}

/// Records of 16 far sites each, all shuffled.
fn far(records: usize) -> Input {
    let mut module = Module::new(WHOLE);
    let mut sites = places(16 * records, 4);
    Noise::new(2).shuffle(&mut sites);
    for (n, sites) in sites.chunks_exact(16).enumerate() {
        let site = module.link(sites);
        let segment = 1 + n as u16 % 4;
        module.records.push(record(FAR, 0, site, segment, n as u16));
    }
    let name = format!("{records} records of 16 far sites");
    Input::new(name, &module).of_family("16 far sites each, by record", records, records == 1_000)
}

/// Additive offset records.
fn additive(records: usize) -> Input {
    let mut module = Module::new(WHOLE);
    let mut sites = places(records, 2);
    Noise::new(3).shuffle(&mut sites);
    for (n, &site) in sites.iter().enumerate() {
        let segment = 1 + n as u16 % 4;
        let record = record(OFFSET, ADDITIVE, site as u16, segment, n as u16);
        module.records.push(record);
    }
    let name = format!("{records} additive records");
    Input::new(name, &module).of_family("additive, by record", records, records == 8_000)
}

/// Records of one far site each, whose targets are ordinals of a long entry
/// table.
fn by_ordinal(records: usize) -> Input {
    let mut module = Module::new(WHOLE);
    module.entries = entry_table(ORDINALS);
    let mut noise = Noise::new(4);
    let mut sites = places(records, 4);
    noise.shuffle(&mut sites);
    for &site in &sites {
        let site = module.link(&[site]);
        let ordinal = 1 + noise.below(ORDINALS) as u16;
        module.records.push(record(FAR, 0, site, 255, ordinal));
    }
    let name = format!("{records} records by ordinal");
    Input::new(name, &module).of_family("by ordinal, by record", records, records == 8_000)
}

/// A segment of 256 bytes, with a record of each type or without records.
fn small(with_records: bool) -> Input {
    let mut module = Module::new(256);
    if with_records {
        let (offsets, selectors) = (module.link(&[4, 60, 32]), module.link(&[100, 90]));
        let far = module.link(&[200, 220]);
        module.records = vec![
            record(OFFSET, 0, offsets, 2, 0x1234),
            record(SELECTOR, 0, selectors, 3, 0),
            record(FAR, 1, far, 1, 7),
            record(LOW_BYTE, 2 | ADDITIVE, 255, 1, module::STRING),
        ];
    }
    let many = module.records.len();
    Input::new(format!("256 bytes, {many} records"), &module)
}
