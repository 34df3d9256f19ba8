//! A run: all images in their ways, what can't be read, and the kinds seen.

use crate::folder::Folder;
use crate::images::{Image, Way, WAYS};
use crate::program::{Given, Lists, Written};
use crate::seen::{Kind, Seen};
use crate::{by_hand, difference, generated, longest, unreadable};
use builder::shrink;
use std::io;
use tally::Tally;

/// Differences that are printed; the others are only counted.
const PRINTED: u32 = 5;
/// Runs of the program to make one image shorter.
const SHORTENING: usize = 100;

pub fn run(program: &dyn Lists) -> io::Result<Tally> {
    let mut run = Run::new(program)?;
    run.by_hand()?;
    run.longest()?;
    run.generated(generated::images())?;
    run.unreadable()?;
    println!("{}", run.seen.table());
    run.tally.add(run.seen.check());
    Ok(run.tally)
}

pub struct Run<'a> {
    program: &'a dyn Lists,
    folder: Folder,
    pub seen: Seen,
    pub tally: Tally,
    differing: u32,
}

impl<'a> Run<'a> {
    pub fn new(program: &'a dyn Lists) -> io::Result<Self> {
        Ok(Run {
            program,
            folder: Folder::new()?,
            seen: Seen::default(),
            tally: Tally::default(),
            differing: 0,
        })
    }

    /// The listings written out by hand, in both ways; the reference must give
    /// them too.
    pub fn by_hand(&mut self) -> io::Result<()> {
        let mut group = Tally::default();
        for (image, text) in by_hand::listed() {
            let held = reference::listing(&image.bytes) == text.as_bytes();
            if !held {
                println!("FAILED: the reference on {}", image.origin);
            }
            group.count(held);
            for way in WAYS {
                group.count(self.compare(&image, way)?);
            }
        }
        self.close("by hand", group);
        Ok(())
    }

    /// The longest listings, in both ways.
    pub fn longest(&mut self) -> io::Result<()> {
        let mut group = Tally::default();
        for image in longest::images() {
            for way in WAYS {
                group.count(self.compare(&image, way)?);
            }
        }
        self.close("longest", group);
        Ok(())
    }

    /// Each image in one way, and the next one in the other.
    pub fn generated(&mut self, images: impl Iterator<Item = Image>) -> io::Result<()> {
        let mut group = Tally::default();
        for (image, way) in images.zip(WAYS.into_iter().cycle()) {
            group.count(self.compare(&image, way)?);
        }
        self.close("generated", group);
        Ok(())
    }

    pub fn unreadable(&mut self) -> io::Result<()> {
        let group = unreadable::check(self.program, &self.folder)?;
        self.close("unreadable", group);
        Ok(())
    }

    fn close(&mut self, name: &str, group: Tally) {
        println!("{}", group.line(name));
        self.tally.add(group);
    }

    /// Whether the program lists the image as the reference does.
    fn compare(&mut self, image: &Image, way: Way) -> io::Result<bool> {
        let expected = reference::listing(&image.bytes);
        let written = self.list(&image.bytes, way)?;
        if is_listing(&written, &expected) {
            if let Some(kind) = Kind::of(&expected) {
                self.seen.note(kind, way);
            }
            return Ok(true);
        }
        self.differing += 1;
        if self.differing <= PRINTED {
            self.report(image, way, &written, &expected);
        }
        Ok(false)
    }

    fn list(&self, image: &[u8], way: Way) -> io::Result<Written> {
        match way {
            Way::File => {
                let file = self.folder.hold(image)?;
                self.program.list(Given {
                    file: Some(&file),
                    input: &[],
                })
            }
            Way::StandardInput => self.program.list(Given {
                file: None,
                input: image,
            }),
        }
    }

    fn report(&self, image: &Image, way: Way, written: &Written, expected: &[u8]) {
        let length = image.bytes.len();
        println!("DIFFERENCE, {}, {length} bytes, {way}", image.origin);
        let short = shrink(&image.bytes, SHORTENING, |bytes| {
            let written = self.list(bytes, way);
            written.is_ok_and(|written| !is_listing(&written, &reference::listing(bytes)))
        });
        let lines = difference::of_listing(written, expected);
        for line in lines.iter().chain(&difference::of_shortened(&short)) {
            println!("{line}");
        }
    }
}

/// The listing on standard output, and nothing on standard error.
fn is_listing(written: &Written, expected: &[u8]) -> bool {
    written.output == expected && written.errors.is_empty()
}
