//! The calls over the crate `plain`. They stand in for the library's where that is asked for by name: to try the runs
//! themselves, and, by the feature `wrong`, to see that they find faults.

mod sound;
mod wrong;

pub use wrong::{fault, FAULTS};

use slices::{Arcs, CostRoom, Costs, Graph, GraphRoom, RoadRoom, Roads, Told, Way};

/// In place of griezmuld_build.
pub fn build(arcs: Arcs, order: &[u32], room: GraphRoom) -> Told {
    match fault() {
        0 => sound::build(arcs, order, room),
        _ => wrong::build(arcs, order, room),
    }
}

/// In place of griezmuld_customise.
pub fn customise(roads: Roads, graph: Graph, room: CostRoom) -> Told {
    match fault() {
        0 => sound::customise(roads, graph, room),
        _ => wrong::customise(roads, graph, room),
    }
}

/// In place of griezmuld_change.
pub fn change(roads: RoadRoom, graph: Graph, room: CostRoom, arc: u32, cost: u32) -> Told {
    match fault() {
        0 => sound::change(roads, graph, room, arc, cost),
        _ => wrong::change(roads, graph, room, arc, cost),
    }
}

/// In place of griezmuld_distance.
pub fn distance(graph: Graph, costs: Costs, from: u32, to: u32) -> Told {
    match fault() {
        0 => sound::distance(graph, costs, from, to),
        _ => wrong::distance(graph, costs, from, to),
    }
}

/// In place of griezmuld_sweep_from and griezmuld_sweep_to.
pub fn sweep(way: Way, graph: Graph, costs: Costs, end: u32, distances: &mut [u32]) -> Told {
    let swept = Swept {
        way,
        graph,
        costs,
        end,
    };
    match fault() {
        0 => sound::sweep(swept, distances),
        _ => wrong::sweep(swept, distances),
    }
}

/// All that a sweep reads, and which sweep it is.
#[derive(Clone, Copy)]
struct Swept<'a> {
    way: Way,
    graph: Graph<'a>,
    costs: Costs<'a>,
    end: u32,
}

/// In place of griezmuld_route.
pub fn route(
    roads: Roads,
    graph: Graph,
    costs: Costs,
    from: u32,
    to: u32,
    route: &mut [u32],
) -> Told {
    let asked = Asked {
        roads,
        graph,
        costs,
        from,
        to,
    };
    match fault() {
        0 => sound::route(asked, route),
        _ => wrong::route(asked, route),
    }
}

/// All that route reads.
#[derive(Clone, Copy)]
struct Asked<'a> {
    roads: Roads<'a>,
    graph: Graph<'a>,
    costs: Costs<'a>,
    from: u32,
    to: u32,
}
