//! Tests of the builder. The checker in `check` reads images by the rules of
//! document 01 and shares nothing with the assembler.

mod check;
mod damage;
mod features;
mod generated;
mod layout;
mod shrink;
mod special;
