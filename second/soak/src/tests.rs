//! That a run ends as it should, and says what it should.

mod options;
mod progress;
mod rounds;
mod runs;
