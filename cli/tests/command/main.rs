//! The command on files in a folder of its own: what it writes, word for word,
//! and how it ends.

#![forbid(unsafe_code)]

mod check;
mod cut;
mod explain;
mod files;
mod folders;
mod help;
mod info;
mod json;
mod limits;
mod list;
mod lists;
mod manual;
#[path = "../../../wrapper/tests/answers/module.rs"]
mod module;
mod output_file;
mod prepare;
mod query;
mod run;
mod streams;
mod terminal;
mod usage;
mod verdicts;
