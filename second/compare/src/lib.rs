//! Compares the static library `ne` with the reference.
//!
//! Every exported function is called beside its reference on generated, damaged
//! and random images, and every answer must be equal, and so must all that is
//! left in lent memory. Where a segment is prepared, its records are done by
//! steps as well, in many orders, which must give the same bytes. Before that,
//! each refusal is demanded of both at its exact edges, with answers written out
//! by hand.

#![deny(unsafe_code)]

mod answer;
mod bytes;
pub mod calls;
pub mod cases;
mod difference;
mod edges;
mod group;
pub mod inputs;
#[allow(unsafe_code)]
pub mod library;
pub mod options;
pub mod results;
pub mod run;
pub mod seen;
mod stated;
mod streams;
#[cfg(test)]
mod tests;
