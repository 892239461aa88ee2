//! Change with one fault planted: 70 to 95, and those of the older faults that touch every call.

use super::sloppy::{road, Rows};
use super::{fault, told, NO};
use crate::sound;
use plain::CLOSED;
use slices::{Arcs, CostRoom, Graph, RoadRoom, Roads, Told};

/// The lists that a change writes.
struct Written<'a> {
    costs: &'a mut [u32],
    up: &'a mut [u32],
    down: &'a mut [u32],
}

impl Written<'_> {
    fn copies(&self) -> Old {
        Old {
            costs: self.costs.to_vec(),
            up: self.up.to_vec(),
            down: self.down.to_vec(),
        }
    }

    fn restore(&mut self, old: &Old) {
        self.costs.copy_from_slice(&old.costs);
        self.restore_edges(old);
    }

    fn restore_edges(&mut self, old: &Old) {
        self.up.copy_from_slice(&old.up);
        self.down.copy_from_slice(&old.down);
    }
}

/// The same lists before.
struct Old {
    costs: Vec<u32>,
    up: Vec<u32>,
    down: Vec<u32>,
}

/// All that a change reads besides.
#[derive(Clone, Copy)]
struct Asked<'a> {
    arcs: Arcs<'a>,
    graph: Graph<'a>,
    arc: u32,
    cost: u32,
}

impl Asked<'_> {
    fn soundly(self, written: &mut Written) -> Told {
        let (arcs, costs) = (self.arcs, &mut *written.costs);
        let (up, down) = (&mut *written.up, &mut *written.down);
        let roads = RoadRoom { arcs, costs };
        let room = CostRoom { up, down };
        sound::change(roads, self.graph, room, self.arc, self.cost)
    }
}

pub fn change(roads: RoadRoom, graph: Graph, room: CostRoom, arc: u32, cost: u32) -> Told {
    let asked = Asked {
        arcs: roads.arcs,
        graph,
        arc,
        cost,
    };
    let mut written = Written {
        costs: roads.costs,
        up: room.up,
        down: room.down,
    };
    match fault() {
        1 => return NO,
        87 => {
            // SAFETY: none; the guard behind the list is there to be written
            unsafe { *written.up.as_mut_ptr().add(written.up.len()) = 0 };
        }
        90 if graph.order.len() == 4_096 => return NO,
        _ => {}
    }
    let old = written.copies();
    let reply = asked.soundly(&mut written);
    told(match reply.number {
        0 => accept_wrongly(asked, &mut written, &old, reply),
        9 => refuse_cost_wrongly(asked, &mut written, &old, reply),
        17 => refuse_arc_wrongly(asked, reply),
        _ => reply,
    })
}

/// What is left of a sound change.
fn accept_wrongly(asked: Asked, written: &mut Written, old: &Old, mut reply: Told) -> Told {
    let edges = asked.graph.first[asked.graph.order.len()] as usize;
    match fault() {
        5 => written.restore(old),
        70 => written.costs.copy_from_slice(&old.costs),
        71 => reply.triangles *= 2,
        76 => {
            written.up[edges..].fill(CLOSED);
            written.down[edges..].fill(CLOSED);
        }
        92 if asked.cost == CLOSED => {
            written.restore(old);
            return Told { number: 9, ..NO };
        }
        93 => written.restore_edges(old),
        72..=75 | 77 | 78 | 83..=86 | 88 | 91 | 95 => {
            written.restore_edges(old);
            reply.triangles = sloppily(asked, written, old);
        }
        _ => {}
    }
    reply
}

/// What is left of 9, for a cost that stands or for the new one.
fn refuse_cost_wrongly(asked: Asked, written: &mut Written, old: &Old, reply: Told) -> Told {
    let arc = asked.arc as usize;
    let stands = old.costs.iter().any(|&cost| is_unlawful(cost));
    match fault() {
        81 if !stands => Told { place: 0, ..reply },
        82 if !stands => {
            written.costs[arc] = asked.cost;
            reply
        }
        89 if reply.place == u64::from(asked.arc) && stands && !is_unlawful(asked.cost) => {
            written.costs[arc] = 1;
            asked.soundly(written)
        }
        94 if stands && arc >= old.costs.len() => Told { number: 17, ..NO },
        _ => reply,
    }
}

/// What is left of 17.
fn refuse_arc_wrongly(asked: Asked, reply: Told) -> Told {
    match fault() {
        79 if asked.arc as usize == asked.arcs.tails.len() => Told::default(),
        80 if is_unlawful(asked.cost) => Told {
            number: 9,
            place: u64::from(asked.arc),
            ..reply
        },
        _ => reply,
    }
}

fn is_unlawful(cost: u32) -> bool {
    cost == 0 || (cost > 500_000 && cost != CLOSED)
}

/// An edge whose turn it is.
struct Edge {
    place: usize,
    /// The places of the two lower edges of each lower triangle.
    below: Vec<(usize, usize)>,
    /// What the arcs in force cost up and down, before and now.
    before: [u32; 2],
    now: [u32; 2],
    /// Whether the arc leads up here, or down.
    arc_leads: [bool; 2],
}

/// Every edge in turn, wrong in one way by the fault's number: how many triangles are told.
fn sloppily(asked: Asked, written: &mut Written, old: &Old) -> u64 {
    let rows = Rows::of(asked.graph);
    let mut triangles = 0;
    for x in 0..asked.graph.order.len() {
        for &y in rows.row(x) {
            let edge = edge_of(asked, &rows, written, old, (x, y as usize));
            if !is_reconsidered(&edge, written, old) {
                continue;
            }
            reconsider(&edge, written, old);
            triangles += count(&edge, written, old);
            if fault() == 77 && !has_changed(written, old, edge.place) {
                return triangles;
            }
        }
    }
    triangles
}

fn edge_of(asked: Asked, rows: &Rows, written: &Written, old: &Old, pair: (usize, usize)) -> Edge {
    let ((x, y), order) = (pair, asked.graph.order);
    let Asked { arcs, arc, .. } = asked;
    let arc = arc as usize;
    let ways = [(order[x], order[y]), (order[y], order[x])];
    let arc_leads = ways.map(|way| way == (arcs.tails[arc], arcs.heads[arc]));
    let in_force = |costs: &[u32]| {
        let mut found = ways.map(|(tail, head)| {
            let road = road(Roads { arcs, costs }, tail, head);
            road.map_or(CLOSED, |(_, cost)| cost)
        });
        for (found, arc_leads) in found.iter_mut().zip(arc_leads) {
            if fault() == 84 && arc_leads {
                *found = costs[arc];
            }
        }
        found
    };
    let below = (0..x).filter_map(|z| Some((rows.place(z, x)?, rows.place(z, y)?)));
    Edge {
        place: rows.place(x, y).expect("an edge"),
        below: below.collect(),
        before: in_force(&old.costs),
        now: in_force(written.costs),
        arc_leads,
    }
}

/// Fault 75: a down cost that changed isn't seen; fault 78: the new up cost is held to the old down cost; fault 91: edges
/// past 65,536 aren't seen.
fn has_changed(written: &Written, old: &Old, place: usize) -> bool {
    let up = written.up[place] != old.up[place];
    let down = written.down[place] != old.down[place];
    match fault() {
        75 => up,
        78 => written.up[place] != old.down[place],
        91 => (up || down) && place < 65_536,
        _ => up || down,
    }
}

/// Fault 73: every edge is; fault 74: only the arc's own; fault 85: the arc's own is in any case.
fn is_reconsidered(edge: &Edge, written: &Written, old: &Old) -> bool {
    let changed = |&(low, high): &(usize, usize)| {
        has_changed(written, old, low) || has_changed(written, old, high)
    };
    match fault() {
        73 => true,
        74 => edge.before != edge.now,
        85 if edge.arc_leads != [false; 2] => true,
        _ => edge.before != edge.now || edge.below.iter().any(changed),
    }
}

/// Fault 83: sums are cut to 32 bits; fault 86: the other direction of the arc's own edge is left; fault 88: the sums are
/// those of the costs of before.
fn reconsider(edge: &Edge, written: &mut Written, old: &Old) {
    let (up, down) = match fault() {
        88 => (&old.up[..], &old.down[..]),
        _ => (&*written.up, &*written.down),
    };
    let sum = |a: u32, b: u32| match fault() {
        83 => a.wrapping_add(b),
        _ => a.saturating_add(b),
    };
    let [mut upward, mut downward] = edge.now;
    for &(low, high) in &edge.below {
        upward = upward.min(sum(down[low], up[high]));
        downward = downward.min(sum(down[high], up[low]));
    }
    let [keeps_down, keeps_up] = edge.arc_leads.map(|leads| fault() == 86 && leads);
    if !keeps_up {
        written.up[edge.place] = upward;
    }
    if !keeps_down {
        written.down[edge.place] = downward;
    }
}

/// Fault 72: a triangle counts for each direction whose cost changed; fault 95: only one with a changed edge counts.
fn count(edge: &Edge, written: &Written, old: &Old) -> u64 {
    let changed = |&&(low, high): &&(usize, usize)| {
        has_changed(written, old, low) || has_changed(written, old, high)
    };
    let all = edge.below.len() as u64;
    let place = edge.place;
    match fault() {
        72 => {
            let up = u64::from(written.up[place] != old.up[place]);
            let down = u64::from(written.down[place] != old.down[place]);
            all * (up + down)
        }
        95 => edge.below.iter().filter(changed).count() as u64,
        _ => all,
    }
}
