//! The calls under test: the library's, by its C functions, and those of the crate `plain`.

use crate::lists::{Call, LISTS};
use crate::Told;
use calls::told;
use plain::Refusal;
use slices::{Arcs, CostRoom, Costs, Graph, GraphRoom, RoadRoom, Roads, Way};

/// The calls of one implementation, with the numbers that they tell.
pub trait Subject {
    /// Its name in reports.
    fn name(&self) -> &'static str;

    /// Build.
    fn build(&self, arcs: Arcs, order: &[u32], room: GraphRoom) -> Told;

    /// Customise.
    fn customise(&self, roads: Roads, graph: Graph, room: CostRoom) -> Told;

    /// Change.
    fn change(&self, roads: RoadRoom, graph: Graph, room: CostRoom, arc: u32, cost: u32) -> Told;

    /// Distance.
    fn distance(&self, graph: Graph, costs: Costs, from: u32, to: u32) -> Told;

    /// Route.
    fn route(
        &self,
        roads: Roads,
        graph: Graph,
        costs: Costs,
        from: u32,
        to: u32,
        route: &mut [u32],
    ) -> Told;

    /// A sweep.
    fn sweep(&self, way: Way, graph: Graph, costs: Costs, end: u32, distances: &mut [u32]) -> Told;
}

/// Both.
pub const SUBJECTS: [&dyn Subject; 2] = [&Library, &Plain];

/// Runs a call on lists, in the sequence of [`crate::lists::NAMES`], and on two numbers: from and to, or an arc and its
/// new cost. It writes only what that call may write.
#[inline]
pub fn run(
    subject: &dyn Subject,
    call: Call,
    lists: [&mut [u32]; LISTS],
    (from, to): (u32, u32),
) -> Told {
    let [tails, heads, costs, order, rank, first, row_heads, up, down, route, distances] = lists;
    let arcs = Arcs { tails, heads };
    let graph = Graph {
        order,
        rank,
        first,
        row_heads,
    };
    match call {
        Call::Build => {
            let room = GraphRoom {
                rank,
                first,
                row_heads,
            };
            subject.build(arcs, order, room)
        }
        Call::Customise => subject.customise(Roads { arcs, costs }, graph, CostRoom { up, down }),
        Call::Change => {
            let (roads, (arc, cost)) = (RoadRoom { arcs, costs }, (from, to));
            subject.change(roads, graph, CostRoom { up, down }, arc, cost)
        }
        Call::Distance => subject.distance(graph, Costs { up, down }, from, to),
        Call::Route => {
            let roads = Roads { arcs, costs };
            subject.route(roads, graph, Costs { up, down }, from, to, route)
        }
        Call::Sweep(way) => {
            let end = match way {
                Way::From => from,
                Way::To => to,
            };
            subject.sweep(way, graph, Costs { up, down }, end, distances)
        }
    }
}

/// The library, or what is linked in its place.
pub struct Library;

impl Subject for Library {
    fn name(&self) -> &'static str {
        if calls::LIBRARY {
            "library"
        } else {
            "stand-in"
        }
    }

    fn build(&self, arcs: Arcs, order: &[u32], room: GraphRoom) -> Told {
        as_told(told::build(arcs, order, room))
    }

    fn customise(&self, roads: Roads, graph: Graph, room: CostRoom) -> Told {
        as_told(told::customise(roads, graph, room))
    }

    fn change(&self, roads: RoadRoom, graph: Graph, room: CostRoom, arc: u32, cost: u32) -> Told {
        as_told(told::change(roads, graph, room, arc, cost))
    }

    fn distance(&self, graph: Graph, costs: Costs, from: u32, to: u32) -> Told {
        as_told(told::distance(graph, costs, from, to))
    }

    fn route(
        &self,
        roads: Roads,
        graph: Graph,
        costs: Costs,
        from: u32,
        to: u32,
        route: &mut [u32],
    ) -> Told {
        as_told(told::route(roads, graph, costs, from, to, route))
    }

    fn sweep(&self, way: Way, graph: Graph, costs: Costs, end: u32, distances: &mut [u32]) -> Told {
        as_told(told::sweep(way, graph, costs, end, distances))
    }
}

/// The numbers as the naive programs have them.
fn as_told(told: slices::Told) -> Told {
    Told {
        number: told.number,
        place: told.place,
        edges: told.edges,
        distance: told.distance,
        arcs: told.arcs,
        triangles: told.triangles,
    }
}

/// Plain safe Rust.
pub struct Plain;

impl Subject for Plain {
    fn name(&self) -> &'static str {
        "plain Rust"
    }

    fn build(&self, arcs: Arcs, order: &[u32], room: GraphRoom) -> Told {
        match plain::build(arcs, order, room) {
            Ok(edges) => Told {
                edges: edges as u64,
                ..Told::default()
            },
            Err(refusal) => refused(refusal),
        }
    }

    fn customise(&self, roads: Roads, graph: Graph, room: CostRoom) -> Told {
        plain::customise(roads, graph, room).map_or_else(refused, |()| Told::default())
    }

    fn change(&self, roads: RoadRoom, graph: Graph, room: CostRoom, arc: u32, cost: u32) -> Told {
        match plain::change(roads, graph, room, arc, cost) {
            Ok(triangles) => Told {
                triangles,
                ..Told::default()
            },
            Err(refusal) => refused(refusal),
        }
    }

    fn distance(&self, graph: Graph, costs: Costs, from: u32, to: u32) -> Told {
        match plain::distance(graph, costs, from, to) {
            Ok(distance) => Told {
                distance: distance.unwrap_or(u64::MAX),
                ..Told::default()
            },
            Err(refusal) => refused(refusal),
        }
    }

    fn route(
        &self,
        roads: Roads,
        graph: Graph,
        costs: Costs,
        from: u32,
        to: u32,
        route: &mut [u32],
    ) -> Told {
        match plain::route(roads, graph, costs, from, to, route) {
            Ok(Some(drive)) => Told {
                distance: drive.distance,
                arcs: drive.arcs as u64,
                ..Told::default()
            },
            Ok(None) => Told {
                distance: u64::MAX,
                ..Told::default()
            },
            Err(refusal) => refused(refusal),
        }
    }

    fn sweep(&self, way: Way, graph: Graph, costs: Costs, end: u32, distances: &mut [u32]) -> Told {
        let swept = plain::sweep(way, graph, costs, end, distances);
        swept.map_or_else(refused, |()| Told::default())
    }
}

fn refused(refusal: Refusal) -> Told {
    Told {
        number: refusal.number(),
        place: refusal.place() as u64,
        ..Told::default()
    }
}
