//! Griezmuld from Rust: safe wrappers over the C functions of include/griezmuld.h, slices in, enums out.
//!
//! [`build`] makes a graph of shortcuts from the roads and an order of the junctions, [`customise`] puts costs onto it,
//! [`change`] gives one arc another cost; [`distance`], [`sweep`] (two of the C functions) and [`route`] then answer
//! questions. The module [`told`] has the same calls with the bare numbers. What the header says of the lists, of the stack and of what a call costs holds here, too:
//! a thread that calls `route` gets its stack by `std::thread::Builder::new().stack_size(griezmuld::ROUTE_STACK)`.
//!
//! Copy this folder, or name it in a Cargo.toml as `griezmuld = { path = "../griezmuld/examples/rust" }`. Outside the
//! repository the variable GRIEZMULD_ARCHIVE names the archive by its full path, as /usr/local/lib/libgriezmuld.a.

mod answers;
#[cfg(not(feature = "without-calls"))]
mod calls;
#[cfg(not(feature = "without-calls"))]
mod foreign;
#[cfg(not(feature = "without-calls"))]
pub mod told;

pub use answers::{Built, Changed, Distance, Filled, Refusal, Route};
#[cfg(not(feature = "without-calls"))]
pub use calls::{build, change, customise, distance, route, sweep, LINKED};
pub use slices::{Arcs, CostRoom, Costs, Graph, GraphRoom, RoadRoom, Roads, Told, Way};
#[cfg(not(feature = "without-calls"))]
pub use told::version;

/// The release that these wrappers are of, as a number: where [`version`] tells another, they and the archive do not
/// belong together.
pub const VERSION: u32 = 10_301;

/// "CLOSED": the cost of a closed arc or edge; what fills a route list, and a distance list where no walk leads.
pub const CLOSED: u32 = u32::MAX;

/// The greatest cost of an arc that isn't closed.
pub const GREATEST_COST: u32 = 500_000;

/// The stack, in bytes, to give a thread that calls [`route`].
pub const ROUTE_STACK: usize = 2 << 20;
