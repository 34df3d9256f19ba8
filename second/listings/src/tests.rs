//! That the comparison can fail, and fails well.

mod longest;
mod program;
mod reports;
mod seen;
mod wrong;
