//! The longest images, the most segments and the most work.

use crate::module::{put_word, Module, Segment};
use crate::run::{says, Folder};

const LONGEST: usize = 16_777_216;

#[test]
fn an_image_of_16_mebibytes_and_one_byte_more() {
    let folder = Folder::new();
    let mut image = Module::sample().image();
    image.resize(LONGEST, 0);
    folder.put("long", &image);
    image.push(0);
    folder.put("longer", &image);
    let expected = "long: accepted, 2 segments, 4 sites
longer: refused 2: the file has over 16,777,216 bytes
2 files: 1 accepted, 1 refused, 0 not read
";
    let answer = folder.nemod(&["check", "long", "longer"]);
    assert_eq!(answer, says(1, expected));
    let refused = "refused 2: the file has over 16,777,216 bytes\n";
    assert_eq!(folder.nemod(&["segment", "longer", "1"]), says(1, refused));
}

/// A module of so many segments, which all have the row of the first.
fn alike(segments: usize, first: Segment, entries: usize) -> Vec<u8> {
    let mut all = vec![Segment::default(); segments];
    all[0] = first;
    // The tables' places have to fit their words, so they go before the segments.
    let module = Module {
        entries: vec![0; entries],
        ..Module::default()
    };
    let mut image = module.image();
    put_word(&mut image, 64 + 0x1C, segments as u16);
    let table = image.len();
    put_word(&mut image, 64 + 0x22, (table - 64) as u16);
    image.resize(table + 8 * segments, 0);
    all[0].add(&mut image, table);
    for number in 1..segments {
        image.copy_within(table..table + 8, table + 8 * number);
    }
    image
}

/// Without records and with no entry table as many segments as there can be are
/// always checked, however large they are.
#[test]
fn as_many_segments_as_there_can_be() {
    let folder = Folder::new();
    let segment = |stored: usize| Segment {
        stored: vec![1; stored],
        allocation: stored as u16,
        records: Vec::new(),
    };
    folder.put("small", &alike(65_535, segment(3), 0));
    folder.put("large", &alike(65_535, segment(65_536), 0));
    let expected =
        "small: accepted, 65535 segments, 0 sites (header, entry table and segments only)
large: accepted, 65535 segments, 0 sites (header, entry table and segments only)
2 files: 2 accepted, 0 refused, 0 not read
";
    let answer = folder.nemod(&["check", "--segments", "small", "large"]);
    assert_eq!(answer, says(0, expected));
}

/// The steps of one segment among many alike, and of all.
struct Steps {
    segment: Segment,
    entries: usize,
    /// What is known before it is prepared.
    before: u64,
    sites: u64,
}

/// 64 for a segment, one for 16 bytes, 4 for a byte of the entry table, 16 for a
/// record, 8 for a site.
fn examples() -> [Steps; 4] {
    let additive = |site: u8| [0, 4, site, 0, 1, 0, 1, 0];
    [
        // 32,768 bytes of one chain.
        Steps {
            segment: Segment {
                stored: chain(),
                allocation: 32_768,
                records: vec![[5, 0, 0, 0, 1, 0, 0, 0]],
            },
            entries: 0,
            before: 64 + 65_536 / 16 + 16,
            sites: 16_384,
        },
        // Three records with a site each, and an entry table.
        Steps {
            segment: Segment {
                stored: vec![0; 8],
                allocation: 8,
                records: [1, 3, 5].map(additive).to_vec(),
            },
            entries: 100,
            before: 64 + 1 + 400 + 3 * 16,
            sites: 3,
        },
        // OS fixups have no sites.
        Steps {
            segment: Segment {
                stored: vec![0; 16],
                allocation: 16,
                records: vec![[5, 3, 0, 0, 0, 0, 0, 0]; 1_000],
            },
            entries: 0,
            before: 64 + 2 + 16_000,
            sites: 0,
        },
        Steps {
            segment: Segment {
                stored: Vec::new(),
                allocation: 320,
                records: Vec::new(),
            },
            entries: 1,
            before: 64 + 20 + 4,
            sites: 0,
        },
    ]
}

/// A chain of offsets, each word the next but the last.
fn chain() -> Vec<u8> {
    let words = (1..16_384).map(|word| 2 * word).chain([0xFFFF]);
    words.flat_map(u16::to_le_bytes).collect()
}

/// What is before a segment is counted before it is prepared, its sites after.
#[test]
fn the_most_work() {
    let folder = Folder::new();
    for example in examples() {
        let each = example.before + 8 * example.sites;
        folder.put("file", &alike(10, example.segment, example.entries));
        let check = |steps: u64| {
            let steps = steps.to_string();
            folder.nemod(&["check", "--segments", "--work", &steps, "file"])
        };
        let sites = 10 * example.sites;
        let only = "(header, entry table and segments only)";
        let enough = format!(
            "file: accepted, 10 segments, {} {only}
1 file: 1 accepted, 0 refused, 0 not read
",
            match sites {
                1 => "1 site".to_string(),
                _ => format!("{sites} sites"),
            }
        );
        let least = 9 * each + example.before;
        assert_eq!(check(least), says(0, &enough));
        let over = |number: u32| {
            format!(
                "file: too much work: segment {number} is over the limit; --all has none {only}
1 file: 0 accepted, 0 refused, 0 not read, 1 too much work
"
            )
        };
        assert_eq!(check(least - 1), says(1, &over(10)));
        assert_eq!(check(0), says(1, &over(1)));
        let all = folder.nemod(&["check", "--segments", "--all", "file"]);
        assert_eq!(all, says(0, &enough));
    }
}

/// 65,535 segments that share one chain, and 65,535 that share 65,535 records:
/// each file is stopped at the limit, long before its end.
#[test]
fn files_that_were_made_to_take_long() {
    let folder = Folder::new();
    let chained = Segment {
        stored: chain(),
        allocation: 32_768,
        records: vec![[5, 0, 0, 0, 1, 0, 0, 0]],
    };
    folder.put("chain", &alike(65_535, chained, 0));
    let heavy = Segment {
        stored: vec![1],
        allocation: 1,
        records: vec![[5, 3, 0, 0, 0, 0, 0, 0]; 65_535],
    };
    folder.put("records", &alike(65_535, heavy, 60_000));
    let answer = folder.nemod(&["check", "--segments", "chain", "records"]);
    let expected = "chain: too much work: segment 7941 is over the limit; --all has none \
         (header, entry table and segments only)
records: too much work: segment 834 is over the limit; --all has none \
         (header, entry table and segments only)
2 files: 0 accepted, 0 refused, 0 not read, 2 too much work
";
    assert_eq!(answer, says(1, expected));
}

/// Where something is refused before the limit, that is the verdict.
#[test]
fn too_much_work_and_a_refusal() {
    let folder = Folder::with_damaged_sample(|image| image[199] = 0);
    let refused = "refused 16: a name list or a module's name is unsound";
    let lines = format!("s.drv: {refused}\n  module 1: {refused}\n");
    let stopped = "  resource 1: not checked: too much work\n";
    let summary = "1 file: 0 accepted, 1 refused, 0 not read\n";
    let answer = folder.nemod(&["check", "--work", "1", "s.drv"]);
    assert_eq!(answer, says(1, &format!("{lines}{stopped}{summary}")));
    let json = folder.nemod(&["check", "--json", "--work=1", "s.drv"]);
    let end = r#""more_faults":0,"stopped":{"part":"resource","number":1}}"#;
    assert!(json.output.trim_end().ends_with(end), "{}", json.output);
    let sound = Folder::with_sample().nemod(&["check", "--json", "--work=1", "s.drv"]);
    let start = r#"{"file":"s.drv","status":"too much work","checked":"all","#;
    assert!(sound.output.starts_with(start), "{}", sound.output);
    assert_eq!(sound.status, Some(1));
}

/// A table of so many blocks with one resource each.
fn blocks(blocks: usize) -> Vec<u8> {
    let block = [
        1, 0x80, 1, 0, 0, 0, 0, 0, 0, 0, 0, 0, 0, 0, 1, 0x80, 0, 0, 0, 0,
    ];
    let module = Module {
        resources: [&[0, 0], &block.repeat(blocks)[..], &[0, 0]].concat(),
        ..Module::default()
    };
    let mut image = module.image();
    // The resident names are after the table and may be too far for their word.
    put_word(&mut image, 64 + 0x26, 0);
    image
}

/// Each resource passes all blocks: 64 steps and 8 for each block, and once more
/// to see that there is none left.
#[test]
fn the_most_resources() {
    let folder = Folder::new();
    folder.put("file", &blocks(50));
    let steps = 51 * (64 + 8 * 50);
    let check = |steps: u32| folder.nemod(&["check", "--work", &steps.to_string(), "file"]);
    let line = "file: too much work: resource 51 is over the limit; --all has none\n";
    assert!(check(steps - 1).output.contains(line.trim_end()));
    assert!(!check(steps).output.contains("too much work"));
    // 800,000 resources, of which each would pass as many blocks.
    folder.put("file", &blocks(800_000));
    let answer = folder.nemod(&["check", "file"]);
    assert_eq!(answer.status, Some(1));
    assert!(answer.output.contains("too much work"), "{}", answer.output);
}
