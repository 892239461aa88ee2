//! The rules of document 01, and of document 02 as far as it has landed, taken word by word, slow and plain: what every
//! call has to reply and to leave in each lent list, for any lists. Beside it, Dijkstra and Floyd-Warshall, which know
//! nothing of shortcuts.
//!
//! This crate shares no code with the library or with the crate `plain`. It favours the paper's sentences over speed:
//! matrices for what is joined, a recursion for costs, every lower position tried for every label.

pub mod calls;
pub mod causes;
pub mod changed;
pub mod customised;
pub mod graph;
pub mod hierarchy;
pub mod labels;
pub mod program;
pub mod refusals;
pub mod roads;
pub mod sweeps;
pub mod text;
pub mod unpacking;
pub mod walks;

/// "CLOSED = 4,294,967,295"; what fills a route list where no arc stands, and a distance list where no walk leads.
pub const CLOSED: u32 = 4_294_967_295;

/// The distance that stands for "none".
pub const NO_WALK: u64 = 18_446_744_073_709_551_615;
