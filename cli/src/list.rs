//! `nemod list`: what the listing program writes, of a file of any size.

use crate::arguments::Arguments;
use crate::failure::Failure;
use crate::output::Output;
use crate::read;
use crate::status::Status;
use parchgable::Image;

pub fn run(arguments: &Arguments, output: &mut Output) -> Result<Status, Failure> {
    let file = read::needed(arguments.operand(0))?;
    let text = Image::new(&file.bytes).list();
    output.write_all(&text)?;
    Ok(match text.starts_with(b"ordinals") {
        true => Status::Accepted,
        false => Status::Refused,
    })
}
