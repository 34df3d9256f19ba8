//! What the times of the static library `ne` are compared on and with: inputs,
//! careful Rust that does the same work, and the second program.

#![forbid(unsafe_code)]
#![warn(missing_docs)]

pub mod answer;
pub mod careful;
pub mod inputs;
pub mod queries;
pub mod second;
pub mod slowest;

#[cfg(test)]
mod tests;
