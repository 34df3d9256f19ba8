//! Builds New Executable images for comparing two readers of them.
//!
//! A [`description::Description`] says what a module holds and where its parts
//! stand; [`assemble::assemble`] turns it into bytes and a map of every field.
//! [`generate::generate`] makes sound descriptions from a seed, [`damage`] makes
//! unsound images of sound ones, and [`special`] holds images at the edges of
//! the rules. [`shrink`] and [`hexdump`] serve to print an image that differs.

pub mod assemble;
pub mod damage;
pub mod description;
pub mod generate;
pub mod hexdump;
pub mod layout;
pub mod random;
pub mod shrink;
pub mod special;
pub mod systematic;
mod writer;

pub use assemble::{assemble, Image, Unfit};
pub use damage::{damage, Change, Damaged};
pub use description::Description;
pub use generate::{generate, generate_from, Case};
pub use hexdump::{hexdump, hexdump_lines};
pub use layout::{Field, FieldKind, Layout, Table, TableKind};
pub use random::Random;
pub use shrink::shrink;
pub use special::{specials, Special};
pub use systematic::{every_field_damage, every_length, every_truncation};
