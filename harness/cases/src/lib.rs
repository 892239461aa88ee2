//! Random nets with all that is to be tried on them, what makes a failing one small, and the words given to a run.

pub mod case;
pub mod shrink;
pub mod words;

pub use case::{closures, large, small, Case, Change, Damage};
