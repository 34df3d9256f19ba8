//! A request that the two programs answer differently, and its report.

use builder::hexdump_lines;
use builder::shrink::{shrink, USUAL_CALLS};
use std::fmt;

/// Lines of a dump that are printed at most.
const LINES: usize = 400;

/// Both answers, as they are printed.
#[derive(Clone, Debug, PartialEq, Eq)]
pub struct Answers {
    pub library: String,
    pub reference: String,
}

/// Asks both programs about an image and gives their answers if these differ.
pub type Differ = Box<dyn Fn(&[u8]) -> Option<Answers>>;

pub struct Difference {
    pub request: String,
    pub differ: Differ,
}

/// Where a difference was found.
pub struct Place<'a> {
    pub call: &'a str,
    pub kind: &'a str,
    pub case: u64,
    pub seed: u64,
    /// How the image was made.
    pub origin: &'a str,
}

impl fmt::Display for Place<'_> {
    fn fmt(&self, f: &mut fmt::Formatter<'_>) -> fmt::Result {
        let (kind, case, seed) = (self.kind, self.case, self.seed);
        writeln!(f, "DIFFERENCE in {}, {kind} case {case}", self.call)?;
        writeln!(
            f,
            "  again: compare --seed {seed} --only {kind} --only-case {case}"
        )?;
        write!(f, "  image: {}", self.origin)
    }
}

impl Difference {
    /// The report, with the image made as short as it may be.
    pub fn report(&self, place: &Place, image: &[u8]) -> String {
        let short = self.shortened(image);
        let mut lines = vec![place.to_string(), format!("  request: {}", self.request)];
        lines.extend(self.answers(image));
        lines.push("  shortened, the image is".to_string());
        let dump = hexdump_lines(&short, LINES);
        lines.extend(dump.iter().map(|line| format!("    {line}")));
        lines.push("  and on it".to_string());
        lines.extend(self.answers(&short));
        lines.join("\n")
    }

    /// A shorter and emptier image on which the two still differ.
    pub fn shortened(&self, image: &[u8]) -> Vec<u8> {
        shrink(image, USUAL_CALLS, |bytes| (self.differ)(bytes).is_some())
    }

    fn answers(&self, image: &[u8]) -> Vec<String> {
        match (self.differ)(image) {
            Some(answers) => vec![
                format!("  library:   {}", answers.library),
                format!("  reference: {}", answers.reference),
            ],
            None => vec!["  the answers are equal when asked again".to_string()],
        }
    }
}
