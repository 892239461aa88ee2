//! The calls in plain safe Rust, with all checks and without a heap: what the library is measured against.
//!
//! It uses the same methods as the library (rows of the parent tree, chains of indices in stack arrays, labels along
//! the chain of parents, then down over all positions; a change along that chain) and is held to the same rules by the
//! same runs.
//!
//! The calls here take structs of slices. Behind each stands a module whose function takes the slices one by one: if it
//! took the structs, its count of instructions would change by one to three hundredths.

#![forbid(unsafe_code)]

mod build;
mod change;
mod checks;
mod customise;
mod distance;
mod hierarchy;
mod refusal;
mod route;
mod sweep;

pub use refusal::Refusal;
pub use route::Drive;

use slices::{Arcs, CostRoom, Costs, Graph, GraphRoom, RoadRoom, Roads, Way};

/// The most junctions of a net.
pub const MOST_JUNCTIONS: usize = 4_096;

/// The most arcs of a net.
pub const MOST_ARCS: usize = 16_384;

/// The cost of a closed arc or edge; what fills a route list, and a distance list where no walk leads.
pub const CLOSED: u32 = u32::MAX;

/// The greatest cost of an arc.
pub const GREATEST: u32 = 500_000;

/// The end of a chain of indices.
const END: u16 = u16::MAX;

/// No label.
const NO_LABEL: u64 = u64::MAX;

/// Writes the rank list and the shortcut graph, and replies E.
pub fn build(arcs: Arcs, order: &[u32], room: GraphRoom) -> Result<usize, Refusal> {
    let (Arcs { tails, heads }, rank) = (arcs, room.rank);
    build::build(tails, heads, order, rank, room.first, room.row_heads)
}

/// Writes the up and the down costs.
pub fn customise(roads: Roads, graph: Graph, room: CostRoom) -> Result<(), Refusal> {
    let (Arcs { tails, heads }, costs) = (roads.arcs, roads.costs);
    let CostRoom { up, down } = room;
    customise::customise(
        tails,
        heads,
        costs,
        graph.order,
        graph.rank,
        graph.first,
        graph.row_heads,
        up,
        down,
    )
}

/// Gives one arc another cost, and replies how many lower triangles of reconsidered edges there are.
pub fn change(
    roads: RoadRoom,
    graph: Graph,
    room: CostRoom,
    arc: u32,
    cost: u32,
) -> Result<u64, Refusal> {
    let (Arcs { tails, heads }, costs) = (roads.arcs, roads.costs);
    let CostRoom { up, down } = room;
    change::change(
        tails,
        heads,
        costs,
        graph.order,
        graph.rank,
        graph.first,
        graph.row_heads,
        up,
        down,
        arc,
        cost,
    )
}

/// The distance between two junctions, or none.
pub fn distance(graph: Graph, costs: Costs, from: u32, to: u32) -> Result<Option<u64>, Refusal> {
    distance::distance(
        graph.order,
        graph.rank,
        graph.first,
        graph.row_heads,
        costs.up,
        costs.down,
        from,
        to,
    )
}

/// Writes the distances from a junction to every one, or from every one to it.
pub fn sweep(
    way: Way,
    graph: Graph,
    costs: Costs,
    end: u32,
    distances: &mut [u32],
) -> Result<(), Refusal> {
    let (climb, descent) = match way {
        Way::From => (costs.up, costs.down),
        Way::To => (costs.down, costs.up),
    };
    sweep::sweep(
        graph.order,
        graph.rank,
        graph.first,
        graph.row_heads,
        climb,
        descent,
        end,
        distances,
    )
}

/// Writes the route between two junctions, or none.
pub fn route(
    roads: Roads,
    graph: Graph,
    costs: Costs,
    from: u32,
    to: u32,
    route: &mut [u32],
) -> Result<Option<Drive>, Refusal> {
    route::route(
        roads.arcs.tails,
        roads.arcs.heads,
        roads.costs,
        graph.order,
        graph.rank,
        graph.first,
        graph.row_heads,
        costs.up,
        costs.down,
        from,
        to,
        route,
    )
}
