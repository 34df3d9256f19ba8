//! `nemod explain`: what a refusal means.

use crate::arguments::Arguments;
use crate::failure::Failure;
use crate::json::Object;
use crate::output::Output;
use crate::status::Status;
use parchgable::Refusal;

pub fn run(arguments: &Arguments, output: &mut Output) -> Result<Status, Failure> {
    let asked = match arguments.operands().first() {
        Some(number) => Some(of_number(arguments, arguments.number(number)?)?),
        None => None,
    };
    match (asked, arguments.has("--json")) {
        (Some(refusal), false) => {
            writeln!(output, "{refusal}")?;
            writeln!(output, "Meaning: {}", refusal.meaning())?;
            writeln!(output, "What to do: {}", refusal.advice())?;
        }
        (Some(refusal), true) => writeln!(output, "{}", object(refusal))?,
        (None, json) => all(json, output)?,
    }
    Ok(Status::Accepted)
}

fn of_number(arguments: &Arguments, number: u32) -> Result<Refusal, Failure> {
    Refusal::try_from(number).map_err(|unknown| arguments.wrong(unknown))
}

fn all(json: bool, output: &mut Output) -> Result<(), Failure> {
    for refusal in Refusal::ALL {
        match json {
            true => writeln!(output, "{}", object(refusal))?,
            false => writeln!(output, "{:>2}  {}", refusal.number(), refusal.text())?,
        }
    }
    Ok(())
}

fn object(refusal: Refusal) -> Object {
    Object::default()
        .number("refusal", refusal.number())
        .string("text", refusal.text())
        .string("meaning", refusal.meaning())
        .string("advice", refusal.advice())
}
