//! The command line.

/// The cases of each call that are drawn from the seed when nothing is said.
pub const USUAL_CASES: u64 = 800_000;
const USUAL_SEED: u64 = 1;
const USAGE: &str = "usage: compare [--cases N] [--seed S] [--only NAME] [--only-case K]";

#[derive(Clone, Debug, PartialEq, Eq)]
pub struct Options {
    /// Cases of each call that are drawn from the seed.
    pub cases: u64,
    pub seed: u64,
    /// Only this group of checks, kind of input or call.
    pub only: Option<String>,
    /// Only this case of each kind of input.
    pub only_case: Option<u64>,
}

impl Default for Options {
    fn default() -> Self {
        Options {
            cases: USUAL_CASES,
            seed: USUAL_SEED,
            only: None,
            only_case: None,
        }
    }
}

impl Options {
    /// `names` are those that `--only` takes.
    pub fn parse(
        mut arguments: impl Iterator<Item = String>,
        names: &[&str],
    ) -> Result<Self, String> {
        let mut options = Options::default();
        while let Some(option) = arguments.next() {
            let value = arguments.next().ok_or(USAGE)?;
            match option.as_str() {
                "--cases" => options.cases = number(&value)?,
                "--seed" => options.seed = number(&value)?,
                "--only" => options.only = Some(known(value, names)?),
                "--only-case" => options.only_case = Some(number(&value)?),
                _ => return Err(USAGE.to_string()),
            }
        }
        Ok(options)
    }

    /// Whether nothing of the usual run is left out.
    pub fn is_whole(&self) -> bool {
        self.only.is_none() && self.only_case.is_none() && self.cases >= USUAL_CASES
    }
}

fn number(text: &str) -> Result<u64, String> {
    text.parse()
        .map_err(|_| format!("{text} is not a number\n{USAGE}"))
}

fn known(name: String, names: &[&str]) -> Result<String, String> {
    match names.contains(&name.as_str()) {
        true => Ok(name),
        false => Err(format!("--only takes one of: {}", names.join(", "))),
    }
}
