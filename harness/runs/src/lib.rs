//! What the runs share: the calls under test, lists with guards, cases, judging, shrinking, reporting.

pub mod bounds;
pub mod caught;
pub mod changes;
pub mod examples;
pub mod garbage;
pub mod growth;
pub mod guarded;
pub mod judge;
pub mod lists;
pub mod measure;
pub mod ready;
pub mod shrink;
pub mod subject;
pub mod sweeps;
pub mod tally;

pub use naive::calls::Told;
pub use naive::{CLOSED, NO_WALK};
