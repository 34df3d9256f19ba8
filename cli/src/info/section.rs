//! One table, as it is shown.

use crate::failure::Failure;
use crate::json::Object;
use crate::output::Output;
use parchgable::{Image, Refusal, Refused};

/// A row in text, without its number, and as an object.
pub struct Row {
    pub text: String,
    pub object: Object,
}

/// A table whose rows are asked for by their number.
pub struct Table {
    pub title: &'static str,
    /// The heads of its columns, after the number's.
    pub columns: &'static str,
    pub row: fn(Image, u32) -> Result<Row, Refusal>,
    /// The refusal that is of the whole table and not of one row.
    pub of_all: Option<Refusal>,
}

/// What is found of a table.
pub struct Section {
    pub title: &'static str,
    pub columns: String,
    pub rows: Vec<Row>,
    /// Why there are none.
    pub refused: Option<Refusal>,
    /// Are there more rows than these?
    pub more: bool,
}

impl Table {
    /// The section, with at most so many rows.
    pub fn section(&self, image: Image, most: usize) -> Section {
        let mut section = Section {
            title: self.title,
            columns: format!("  {:>7}  {}", "number", self.columns),
            rows: Vec::new(),
            refused: None,
            more: false,
        };
        for number in 1..=u32::MAX {
            let row = match (self.row)(image, number) {
                Err(Refusal::NoSuchNumber) => break,
                Err(refusal) if self.of_all == Some(refusal) => {
                    section.refused = Some(refusal);
                    break;
                }
                row => row.unwrap_or_else(|refusal| refused(number, refusal)),
            };
            if section.rows.len() == most {
                section.more = true;
                break;
            }
            let text = format!("  {number:>7}  {}", row.text);
            section.rows.push(Row { text, ..row });
        }
        section
    }
}

/// A row that is refused says so, and the next ones follow.
fn refused(number: u32, refusal: Refusal) -> Row {
    let object = Object::default().number("number", number);
    Row {
        text: refusal.to_string(),
        object: object.refused(&Refused::from(refusal)),
    }
}

impl Section {
    pub fn show(&self, output: &mut Output) -> Result<(), Failure> {
        writeln!(output, "\n{}", self.title)?;
        if let Some(refusal) = self.refused {
            return writeln!(output, "  {refusal}");
        }
        if self.rows.is_empty() {
            return writeln!(output, "  none");
        }
        writeln!(output, "{}", self.columns)?;
        for row in &self.rows {
            writeln!(output, "{}", row.text)?;
        }
        match self.more {
            true => writeln!(output, "  There are more. --all shows them."),
            false => Ok(()),
        }
    }

    /// Adds the rows under the title's name, and whether there are more.
    pub fn add_to(&self, object: Object) -> Object {
        let name = self.title.to_ascii_lowercase().replace(' ', "_");
        let object = object.list(&name, self.rows.iter().map(|row| &row.object));
        match self.more {
            true => object.boolean(&format!("more_{name}"), true),
            false => object,
        }
    }
}
