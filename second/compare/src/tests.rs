//! That the comparison can fail, and fails well.

mod cases;
mod edges;
mod lent;
mod noticed;
mod options;
mod orders;
mod reports;
mod requests;
mod results;
mod seen;
mod unclean;
mod wrong;
