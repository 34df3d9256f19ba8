//! The wrapper's answers on small modules.

#![forbid(unsafe_code)]

mod accepted;
mod module;
mod preparing;
mod refusals;
mod refused;
