//! Reads 16-bit Windows modules (New Executable, "NE": drivers, libraries and
//! programs of Windows 1 to 3) and prepares their segments for loading.
//!
//! This is safe Rust over the proved static library `ne`. Every function takes
//! any bytes as an image and any number or name as a request, and returns: what
//! is broken or isn't there is a [`Refusal`], and nothing panics.
//!
//! ```
//! use parchgable::{Image, Refusal};
//!
//! // A module of one segment. Its 8 stored bytes stand at 136, and one fixup record follows.
//! let mut file = [0; 154];
//! file[..2].copy_from_slice(b"MZ");
//! file[60] = 64; // the NE header is at 64
//! file[64..66].copy_from_slice(b"NE");
//! file[92] = 1; // one segment; its table is 64 behind the NE header, at 128
//! file[98] = 64;
//! file[128..136].copy_from_slice(&[136, 0, 8, 0, 0, 1, 8, 0]); // stored at 136, 8 bytes, records, 8 bytes allocated
//! file[138..144].copy_from_slice(&[6, 0, 0xAA, 0xBB, 0xFF, 0xFF]); // a chain from 2 to 6, where FFFFh ends it
//! file[144..154].copy_from_slice(&[1, 0, 5, 0, 2, 0, 1, 0, 0x34, 0x12]); // offset from 2 on, to segment 1 at 1234h
//!
//! let image = Image::new(&file);
//! let selectors = [0x2000]; // where segment 1 is loaded
//! let answers = [0]; // where an imported function is; this record imports nothing
//! let prepared = image.prepared(1, &selectors, &answers)?;
//! assert_eq!(prepared.bytes, [0, 0, 0x34, 0x12, 0xAA, 0xBB, 0x34, 0x12]);
//! assert_eq!(prepared.marks, [0, 0, 1, 1, 0, 0, 1, 1]);
//! assert_eq!(prepared.sites, 2);
//!
//! // Only segment 1 is there.
//! assert_eq!(image.segment(2), Err(Refusal::NoSuchNumber));
//! # Ok::<(), parchgable::Refused>(())
//! ```
//!
//! Places are counted from the file's start, and segments, ordinals, names,
//! modules, resources and records from 1.

#![deny(unsafe_code)]
#![warn(missing_docs)]

mod image;
#[allow(unsafe_code)]
mod library;
mod preparing;
mod refusal;
mod results;
mod values;

pub use image::Image;
pub use preparing::{Prepared, Refused};
pub use refusal::{Refusal, UnknownRefusal};
pub use values::{Entry, Header, Module, Name, Resource, Segment};
