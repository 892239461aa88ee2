//! The calls with their answers as enums.

use crate::answers::{Built, Changed, Distance, Filled, Route};
use crate::told;
use slices::{Arcs, CostRoom, Costs, Graph, GraphRoom, RoadRoom, Roads, Way};

/// The archive that was linked: its file's name and size.
pub const LINKED: &str = env!("GRIEZMULD_LINKED");

/// Builds the shortcut graph into its room: `rank` is n long, `first` n + 1.
pub fn build(arcs: Arcs, order: &[u32], room: GraphRoom) -> Built {
    Built::from(told::build(arcs, order, room))
}

/// Puts costs onto the graph.
pub fn customise(roads: Roads, graph: Graph, room: CostRoom) -> Filled {
    Filled::from(told::customise(roads, graph, room))
}

/// Gives one arc another cost, in the cost list and on the graph, together or not at all.
pub fn change(roads: RoadRoom, graph: Graph, room: CostRoom, arc: u32, cost: u32) -> Changed {
    Changed::from(told::change(roads, graph, room, arc, cost))
}

/// The distance between two junctions.
pub fn distance(graph: Graph, costs: Costs, from: u32, to: u32) -> Distance {
    Distance::from(told::distance(graph, costs, from, to))
}

/// The distances from a junction to every one, or from every one to it.
pub fn sweep(way: Way, graph: Graph, costs: Costs, end: u32, distances: &mut [u32]) -> Filled {
    Filled::from(told::sweep(way, graph, costs, end, distances))
}

/// The route between two junctions.
pub fn route(
    roads: Roads,
    graph: Graph,
    costs: Costs,
    from: u32,
    to: u32,
    route: &mut [u32],
) -> Route {
    Route::from(told::route(roads, graph, costs, from, to, route))
}
