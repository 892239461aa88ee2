//! The calls as they should be.

use crate::{Asked, Swept};
use plain::{Drive, Refusal};
use slices::{Arcs, CostRoom, Costs, Graph, GraphRoom, RoadRoom, Roads, Told};

fn refused(refusal: Refusal) -> Told {
    Told {
        number: refusal.number(),
        place: refusal.place() as u64,
        ..Told::default()
    }
}

pub fn build(arcs: Arcs, order: &[u32], room: GraphRoom) -> Told {
    match plain::build(arcs, order, room) {
        Ok(edges) => Told {
            edges: edges as u64,
            ..Told::default()
        },
        Err(refusal) => refused(refusal),
    }
}

pub fn customise(roads: Roads, graph: Graph, room: CostRoom) -> Told {
    match plain::customise(roads, graph, room) {
        Ok(()) => Told::default(),
        Err(refusal) => refused(refusal),
    }
}

pub fn change(roads: RoadRoom, graph: Graph, room: CostRoom, arc: u32, cost: u32) -> Told {
    match plain::change(roads, graph, room, arc, cost) {
        Ok(triangles) => Told {
            triangles,
            ..Told::default()
        },
        Err(refusal) => refused(refusal),
    }
}

pub fn distance(graph: Graph, costs: Costs, from: u32, to: u32) -> Told {
    match plain::distance(graph, costs, from, to) {
        Ok(distance) => Told {
            distance: distance.unwrap_or(u64::MAX),
            ..Told::default()
        },
        Err(refusal) => refused(refusal),
    }
}

pub fn sweep(swept: Swept, distances: &mut [u32]) -> Told {
    match plain::sweep(swept.way, swept.graph, swept.costs, swept.end, distances) {
        Ok(()) => Told::default(),
        Err(refusal) => refused(refusal),
    }
}

pub fn route(asked: Asked, route: &mut [u32]) -> Told {
    let Asked { from, to, .. } = asked;
    let drive = match plain::route(asked.roads, asked.graph, asked.costs, from, to, route) {
        Ok(drive) => drive,
        Err(refusal) => return refused(refusal),
    };
    let drive = drive.unwrap_or(Drive {
        distance: u64::MAX,
        arcs: 0,
    });
    Told {
        distance: drive.distance,
        arcs: drive.arcs as u64,
        ..Told::default()
    }
}
