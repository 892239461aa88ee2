//! The calls with the bare numbers that they tell.

#![allow(unsafe_code)]

use crate::foreign;
use slices::{Arcs, CostRoom, Costs, Graph, GraphRoom, RoadRoom, Roads, Told, Way};

/// What stands in a number's place before a call that has to write it.
const UNWRITTEN: u64 = 0x0123_4567_89ab_cdef;

/// One number that a call writes, with a guard on either side.
struct Cell([u64; 3]);

impl Cell {
    fn new() -> Cell {
        Cell([UNWRITTEN; 3])
    }

    /// A pointer with leave for the guards too, so that a stray write is seen.
    fn pointer(&mut self) -> *mut u64 {
        self.0.as_mut_ptr().wrapping_add(1)
    }

    fn read(self) -> u64 {
        let [before, value, after] = std::hint::black_box(self.0);
        assert!(
            before == UNWRITTEN && after == UNWRITTEN,
            "a call wrote beside the number that it tells"
        );
        value
    }
}

/// The release that the linked archive is of, as [`crate::VERSION`] writes it.
pub fn version() -> u32 {
    // SAFETY: it gets nothing and writes nothing
    unsafe { foreign::griezmuld_version() }
}

/// griezmuld_build
pub fn build(arcs: Arcs, order: &[u32], room: GraphRoom) -> Told {
    let (mut place, mut edges) = (Cell::new(), Cell::new());
    // SAFETY: each list is a slice with its length; the written ones are borrowed for writing, so they overlap nothing
    #[rustfmt::skip]
    let number = unsafe {
        foreign::griezmuld_build(
            arcs.tails.as_ptr(), arcs.tails.len(),
            arcs.heads.as_ptr(), arcs.heads.len(),
            order.as_ptr(), order.len(),
            room.rank.as_mut_ptr(), room.rank.len(),
            room.first.as_mut_ptr(), room.first.len(),
            room.row_heads.as_mut_ptr(), room.row_heads.len(),
            place.pointer(), edges.pointer(),
        )
    };
    Told {
        number,
        place: place.read(),
        edges: edges.read(),
        ..Told::default()
    }
}

/// griezmuld_customise
pub fn customise(roads: Roads, graph: Graph, room: CostRoom) -> Told {
    let mut place = Cell::new();
    // SAFETY: as in build
    #[rustfmt::skip]
    let number = unsafe {
        foreign::griezmuld_customise(
            roads.arcs.tails.as_ptr(), roads.arcs.tails.len(),
            roads.arcs.heads.as_ptr(), roads.arcs.heads.len(),
            roads.costs.as_ptr(), roads.costs.len(),
            graph.order.as_ptr(), graph.order.len(),
            graph.rank.as_ptr(), graph.rank.len(),
            graph.first.as_ptr(), graph.first.len(),
            graph.row_heads.as_ptr(), graph.row_heads.len(),
            room.up.as_mut_ptr(), room.up.len(),
            room.down.as_mut_ptr(), room.down.len(),
            place.pointer(),
        )
    };
    Told {
        number,
        place: place.read(),
        ..Told::default()
    }
}

/// griezmuld_change
pub fn change(roads: RoadRoom, graph: Graph, room: CostRoom, arc: u32, cost: u32) -> Told {
    let (mut place, mut triangles) = (Cell::new(), Cell::new());
    // SAFETY: as in build
    #[rustfmt::skip]
    let number = unsafe {
        foreign::griezmuld_change(
            roads.arcs.tails.as_ptr(), roads.arcs.tails.len(),
            roads.arcs.heads.as_ptr(), roads.arcs.heads.len(),
            roads.costs.as_mut_ptr(), roads.costs.len(),
            graph.order.as_ptr(), graph.order.len(),
            graph.rank.as_ptr(), graph.rank.len(),
            graph.first.as_ptr(), graph.first.len(),
            graph.row_heads.as_ptr(), graph.row_heads.len(),
            room.up.as_mut_ptr(), room.up.len(),
            room.down.as_mut_ptr(), room.down.len(),
            arc, cost,
            place.pointer(), triangles.pointer(),
        )
    };
    Told {
        number,
        place: place.read(),
        triangles: triangles.read(),
        ..Told::default()
    }
}

/// griezmuld_distance
pub fn distance(graph: Graph, costs: Costs, from: u32, to: u32) -> Told {
    let (mut place, mut distance) = (Cell::new(), Cell::new());
    // SAFETY: as in build
    #[rustfmt::skip]
    let number = unsafe {
        foreign::griezmuld_distance(
            graph.order.as_ptr(), graph.order.len(),
            graph.rank.as_ptr(), graph.rank.len(),
            graph.first.as_ptr(), graph.first.len(),
            graph.row_heads.as_ptr(), graph.row_heads.len(),
            costs.up.as_ptr(), costs.up.len(),
            costs.down.as_ptr(), costs.down.len(),
            from, to,
            place.pointer(), distance.pointer(),
        )
    };
    Told {
        number,
        place: place.read(),
        distance: distance.read(),
        ..Told::default()
    }
}

/// griezmuld_sweep_from or griezmuld_sweep_to
pub fn sweep(way: Way, graph: Graph, costs: Costs, end: u32, distances: &mut [u32]) -> Told {
    let mut place = Cell::new();
    let call = match way {
        Way::From => foreign::griezmuld_sweep_from,
        Way::To => foreign::griezmuld_sweep_to,
    };
    // SAFETY: as in build
    #[rustfmt::skip]
    let number = unsafe {
        call(
            graph.order.as_ptr(), graph.order.len(),
            graph.rank.as_ptr(), graph.rank.len(),
            graph.first.as_ptr(), graph.first.len(),
            graph.row_heads.as_ptr(), graph.row_heads.len(),
            costs.up.as_ptr(), costs.up.len(),
            costs.down.as_ptr(), costs.down.len(),
            end,
            distances.as_mut_ptr(), distances.len(),
            place.pointer(),
        )
    };
    Told {
        number,
        place: place.read(),
        ..Told::default()
    }
}

/// griezmuld_route
pub fn route(
    roads: Roads,
    graph: Graph,
    costs: Costs,
    from: u32,
    to: u32,
    route: &mut [u32],
) -> Told {
    let (mut place, mut distance, mut arcs) = (Cell::new(), Cell::new(), Cell::new());
    // SAFETY: as in build
    #[rustfmt::skip]
    let number = unsafe {
        foreign::griezmuld_route(
            roads.arcs.tails.as_ptr(), roads.arcs.tails.len(),
            roads.arcs.heads.as_ptr(), roads.arcs.heads.len(),
            roads.costs.as_ptr(), roads.costs.len(),
            graph.order.as_ptr(), graph.order.len(),
            graph.rank.as_ptr(), graph.rank.len(),
            graph.first.as_ptr(), graph.first.len(),
            graph.row_heads.as_ptr(), graph.row_heads.len(),
            costs.up.as_ptr(), costs.up.len(),
            costs.down.as_ptr(), costs.down.len(),
            from, to,
            route.as_mut_ptr(), route.len(),
            place.pointer(), distance.pointer(), arcs.pointer(),
        )
    };
    Told {
        number,
        place: place.read(),
        distance: distance.read(),
        arcs: arcs.read(),
        ..Told::default()
    }
}
