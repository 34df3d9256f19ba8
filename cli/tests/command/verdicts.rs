//! `nemod check` against the second program: every fault of generated, damaged
//! and cut images, part by part.

use crate::run::Folder;
use builder::{damage, generate, Random};
use parchgable::Refusal;

const IMAGES: u64 = 3_000;

/// The faults that are listed.
const LISTED: usize = 100;

/// A part, the number of one of several, the refusal and its record.
struct Fault {
    part: &'static str,
    number: Option<u32>,
    refusal: u32,
    record: Option<u32>,
}

impl Fault {
    fn of(part: &'static str, number: Option<u32>, refusal: u32) -> Fault {
        Fault {
            part,
            number,
            refusal,
            record: None,
        }
    }

    fn json(&self) -> String {
        let member = |name: &str, value: Option<u32>| match value {
            Some(value) => format!("\"{name}\":{value},"),
            None => String::new(),
        };
        let refusal = Refusal::try_from(self.refusal).expect("a refusal");
        format!(
            "{{\"part\":\"{}\",{}\"refusal\":{},{}\"text\":\"{}\"}}",
            self.part,
            member("number", self.number),
            self.refusal,
            member("record", self.record),
            refusal.text()
        )
    }
}

/// All faults by the second program, in the order of the parts.
fn faults(image: &[u8]) -> Vec<Fault> {
    let tables = match reference::tables(image) {
        Err(refusal) => return vec![Fault::of("header", None, refusal)],
        Ok(tables) => tables,
    };
    let entries = reference::ordinal(image, 0)
        .err()
        .filter(|found| *found != 15);
    let names = reference::name_by_number(image, 0)
        .err()
        .filter(|found| *found != 8);
    let mut faults = Vec::new();
    faults.extend(entries.map(|refusal| Fault::of("entries", None, refusal)));
    faults.extend(names.map(|refusal| Fault::of("names", None, refusal)));
    for number in 1..=tables.modules {
        let refusal = reference::module(image, number).err();
        faults.extend(refusal.map(|refusal| Fault::of("module", Some(number), refusal)));
    }
    add_resources(image, &mut faults);
    for number in 1..=tables.segments {
        faults.extend(segment(image, number, entries.is_none()));
    }
    faults
}

fn add_resources(image: &[u8], faults: &mut Vec<Fault>) {
    for number in 0.. {
        match (number, reference::resource_by_number(image, number)) {
            (0, Err(8)) | (_, Ok(_)) => {}
            (0, Err(refusal)) => return faults.push(Fault::of("resource", None, refusal)),
            (_, Err(8)) => return,
            (_, Err(refusal)) => faults.push(Fault::of("resource", Some(number), refusal)),
        }
    }
}

/// A segment is prepared, with other addresses than the command's, or its record
/// alone is looked at.
fn segment(image: &[u8], number: u32, prepared: bool) -> Option<Fault> {
    if !prepared {
        let refusal = reference::segment(image, number).err()?;
        return Some(Fault::of("segment", Some(number), refusal));
    }
    let (selectors, answers) = ([7; 65_535], [0x1234_5678; 65_535]);
    let (output, marks) = (&mut [0; 65_536], &mut [0; 65_536]);
    let refused = reference::prepare(image, number, &selectors, &answers, output, marks).err()?;
    Some(Fault {
        record: Some(refused.record).filter(|record| *record != 0),
        ..Fault::of("segment", Some(number), refused.number)
    })
}

#[test]
fn every_fault_is_that_of_the_second_program() {
    let folder = Folder::new();
    let mut random = Random::new(18);
    let mut expected = Vec::new();
    for seed in 0..IMAGES {
        let image = generate(seed).image;
        let bytes = match seed % 3 {
            0 => image.bytes,
            1 => damage(&image, &mut random).bytes,
            _ => image.bytes[..random.below(image.bytes.len())].to_vec(),
        };
        folder.put(format!("{seed:04}"), &bytes);
        expected.push(faults(&bytes));
    }
    let answer = folder.nemod(&["check", "--json", "-r", "."]);
    assert_eq!(answer.errors, "");
    assert_eq!(answer.output.lines().count(), expected.len());
    for (line, faults) in answer.output.lines().zip(&expected) {
        let status = if faults.is_empty() {
            "accepted"
        } else {
            "refused"
        };
        assert!(line.contains(&format!("\"status\":\"{status}\"")), "{line}");
        let listed: Vec<String> = faults.iter().take(LISTED).map(Fault::json).collect();
        let more = faults.len().saturating_sub(LISTED);
        let end = format!("\"faults\":[{}],\"more_faults\":{more}}}", listed.join(","));
        assert!(line.ends_with(&end), "{line}\n{end}");
    }
    // Each part was refused in some image, and some were accepted.
    let first = |part| {
        expected
            .iter()
            .filter(move |faults| faults.first().map(|fault| fault.part) == part)
    };
    for part in [
        "header", "entries", "names", "module", "resource", "segment",
    ] {
        assert!(first(Some(part)).count() > 10, "{part}");
    }
    assert!(first(None).count() > 100);
}
