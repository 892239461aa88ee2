//! Texts for the programs `route` and `bad_line`: stored ones, long ones, random ones, and what runs and compares them.

pub mod compare;
pub mod faults;
pub mod long;
pub mod made;
pub mod program;
pub mod random;
pub mod shrink;
pub mod spoil;
pub mod stored;
pub mod written;
