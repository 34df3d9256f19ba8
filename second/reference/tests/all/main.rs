//! Tests of the reference on small images made by hand.

mod build;
mod entries;
mod examples;
mod header;
mod listing;
mod modules;
mod names;
mod prepare;
mod random;
mod resources;
mod segments;
mod sites;
mod step;
mod tables;
mod targets;
