//! A reference reader and segment preparer for 16-bit Windows New Executable
//! (NE) modules.
//!
//! It follows the rules of document 01 in that document's own order and terms,
//! together with the settled readings of its unclear places, and is meant for
//! comparing answers. Every public call takes any bytes, any numbers and lent
//! buffers of any length. A refusal is the document's number for it.

#![forbid(unsafe_code)]
#![warn(missing_docs)]

mod bytes;
mod entry;
mod fixup;
mod header;
mod listing;
mod modules;
mod names;
mod prepare;
mod resources;
mod segment;
mod step;
mod tables;

pub use entry::{ordinal, Entry};
pub use listing::{list, listing};
pub use modules::{module, Module};
pub use names::{name_by_bytes, name_by_number, Name};
pub use prepare::{prepare, Refused};
pub use resources::{resource_by_number, resource_by_words, Resource};
pub use segment::{segment, Segment};
pub use step::step;
pub use tables::{tables, Tables};
