//! Slow calls over accepted lists that go wrong in one place, by the fault's number.

use super::fault;
use crate::Asked;
use plain::CLOSED;
use slices::{Arcs, CostRoom, Costs, Graph, GraphRoom, Roads, Told};

/// Rows of higher neighbours, as lists say them.
pub struct Rows<'a> {
    first: &'a [u32],
    heads: &'a [u32],
}

impl<'a> Rows<'a> {
    pub fn of(graph: Graph<'a>) -> Rows<'a> {
        Rows {
            first: graph.first,
            heads: graph.row_heads,
        }
    }

    pub fn row(&self, p: usize) -> &[u32] {
        &self.heads[self.first[p] as usize..self.first[p + 1] as usize]
    }

    pub fn place(&self, a: usize, b: usize) -> Option<usize> {
        let (low, high) = (a.min(b), a.max(b));
        let at = self
            .row(low)
            .iter()
            .position(|&head| head as usize == high)?;
        Some(self.first[low] as usize + at)
    }

    fn cost(&self, costs: Costs, from: usize, to: usize) -> Option<u32> {
        let place = self.place(from, to)?;
        let cost = match from < to {
            true => costs.up[place],
            false => costs.down[place],
        };
        (cost != CLOSED).then_some(cost)
    }
}

/// Fault 9: what contraction joins isn't joined further.
pub fn join_input_neighbours(arcs: Arcs, room: GraphRoom) -> u64 {
    let n = room.rank.len();
    let position = |junction: u32| room.rank[junction as usize] as usize;
    let mut input = vec![false; n * n];
    for (&tail, &head) in arcs.tails.iter().zip(arcs.heads) {
        let (a, b) = (position(tail), position(head));
        if a != b {
            input[a * n + b] = true;
            input[b * n + a] = true;
        }
    }
    let mut joined = input.clone();
    for p in 0..n {
        let higher: Vec<usize> = (p + 1..n).filter(|&q| input[p * n + q]).collect();
        for &a in &higher {
            for &b in &higher {
                joined[a * n + b] |= a != b;
            }
        }
    }
    room.row_heads.fill(0);
    let mut place = 0;
    for p in 0..n {
        for q in p + 1..n {
            if joined[p * n + q] {
                room.row_heads[place] = q as u32;
                place += 1;
            }
        }
        room.first[p + 1] = place as u32;
    }
    place as u64
}

/// The arc that counts between two junctions. Fault 24: the first listing; fault 25: the last that isn't closed.
pub fn road(roads: Roads, from: u32, to: u32) -> Option<(u32, u32)> {
    let (Arcs { tails, heads }, costs) = (roads.arcs, roads.costs);
    let listed = |&arc: &usize| tails[arc] == from && heads[arc] == to && from != to;
    let mut arcs: Vec<usize> = (0..tails.len()).filter(listed).collect();
    match fault() {
        24 => arcs.truncate(1),
        25 => arcs.retain(|&arc| costs[arc] != CLOSED),
        _ => {}
    }
    let arc = *arcs.last()?;
    (costs[arc] != CLOSED).then_some((arc as u32, costs[arc]))
}

/// Faults 6, 8, 12, 24, 25.
pub fn customise(roads: Roads, graph: Graph, room: CostRoom) {
    let Graph { order, first, .. } = graph;
    let CostRoom { up, down } = room;
    let rows = Rows::of(graph);
    let n = order.len();
    let edge = |from: usize, to: usize| {
        let road = road(roads, order[from], order[to]);
        road.map_or(CLOSED, |(_, cost)| cost)
    };
    for x in 0..n {
        for place in first[x] as usize..first[x + 1] as usize {
            let y = rows.heads[place] as usize;
            up[place] = edge(x, y);
            down[place] = edge(y, x);
        }
    }
    for turn in 0..n {
        let z = if fault() == 12 { n - 1 - turn } else { turn };
        if fault() == 6 && z > 0 {
            return;
        }
        let start = first[z] as usize;
        let row = rows.row(z);
        for (i, &x) in row.iter().enumerate() {
            for (j, &y) in row.iter().enumerate().skip(i + 1) {
                let place = rows.place(x as usize, y as usize).expect("a hierarchy");
                up[place] = up[place].min(sum(down[start + i], up[start + j]));
                down[place] = down[place].min(sum(down[start + j], up[start + i]));
            }
        }
    }
}

/// The cost of two edges. Fault 8: cut to 32 bits.
fn sum(a: u32, b: u32) -> u32 {
    match fault() {
        8 => a.wrapping_add(b),
        _ => a.saturating_add(b),
    }
}

/// A label and where it comes from. Fault 14: the highest q; fault 45: 0 is taken for none.
fn labels(rows: &Rows, costs: &[u32], end: usize, n: usize) -> Vec<Option<(u64, usize)>> {
    let mut labels = vec![None; n];
    labels[end] = Some((0, end));
    for q in end..n {
        let Some((label, _)) = labels[q] else {
            continue;
        };
        for (at, &p) in rows.row(q).iter().enumerate() {
            let cost = costs[rows.first[q] as usize + at];
            let sum = label + u64::from(cost);
            let better = labels[p as usize].is_none_or(|(old, _)| match fault() {
                14 => sum <= old,
                _ => sum < old,
            });
            if fault() == 45 && sum == 0 {
                continue;
            }
            if cost != CLOSED && better {
                labels[p as usize] = Some((sum, q));
            }
        }
    }
    labels
}

fn chain(rows: &Rows, end: usize) -> Vec<usize> {
    let mut chain = vec![end];
    while let Some(&parent) = rows.row(chain[chain.len() - 1]).first() {
        chain.push(parent as usize);
    }
    chain
}

type Labels = Vec<Option<(u64, usize)>>;

/// The labels of both ends, and where they meet. Fault 11: where the chains first touch; fault 15: the highest.
fn meet(graph: Graph, costs: Costs, from: u32, to: u32) -> (Labels, Labels, Option<(u64, usize)>) {
    let rows = Rows::of(graph);
    let n = graph.order.len();
    let [s, t] = [from, to].map(|end| graph.rank[end as usize] as usize);
    let from_start = labels(&rows, costs.up, s, n);
    let from_target = labels(&rows, costs.down, t, n);
    let mut positions: Vec<usize> = (0..n).collect();
    if fault() == 11 {
        let other = chain(&rows, t);
        positions = chain(&rows, s);
        positions.retain(|p| other.contains(p));
        positions.truncate(1);
    }
    let mut least: Option<(u64, usize)> = None;
    for p in positions {
        if let (Some((a, _)), Some((b, _))) = (from_start[p], from_target[p]) {
            let better = least.is_none_or(|(sum, _)| match fault() {
                15 => a + b <= sum,
                _ => a + b < sum,
            });
            if better {
                least = Some((a + b, p));
            }
        }
    }
    (from_start, from_target, least)
}

/// Faults 11, 26 and 45.
pub fn distance(graph: Graph, costs: Costs, from: u32, to: u32) -> u64 {
    let (_, _, meeting) = meet(graph, costs, from, to);
    meeting.map_or(u64::MAX, |(sum, _)| sum)
}

/// Fault 26: everything that is asked of a hierarchy but the parent rule, of lists that have passed 1 and 4.
pub fn all_but_parents(graph: Graph, costs: Costs, from: u32, to: u32) -> bool {
    let Graph { order, rank, .. } = graph;
    let (first, heads) = (graph.first, graph.row_heads);
    let n = order.len();
    let inverts = rank.len() == n && (0..n).all(|p| rank[order[p] as usize] as usize == p);
    let rises = first.len() == n + 1
        && first[0] == 0
        && first.windows(2).all(|pair| pair[0] <= pair[1])
        && first[n] as usize <= heads.len().min(costs.up.len()).min(costs.down.len());
    let good_row = |p: usize| {
        let row = &heads[first[p] as usize..first[p + 1] as usize];
        row.iter().all(|&q| q as usize > p && (q as usize) < n) && row.is_sorted_by(|a, b| a < b)
    };
    let asked = (from as usize) < n && (to as usize) < n;
    inverts && rises && (0..n).all(good_row) && asked
}

/// Why a piece can't be opened.
enum Trouble {
    Full,
    Misfit,
}

/// Faults 11, 13, 14, 15, 16, 21, 24, 25, 29, 37, 45.
pub fn route(asked: Asked, route: &mut [u32]) -> Told {
    let (from_start, from_target, meeting) = meet(asked.graph, asked.costs, asked.from, asked.to);
    let Some((distance, meeting)) = meeting else {
        route.fill(CLOSED);
        return Told {
            distance: u64::MAX,
            ..Told::default()
        };
    };
    let mut arcs = 0;
    for (from, to) in pieces(&from_start, &from_target, meeting) {
        let number = match open(asked, route, &mut arcs, from, to) {
            Ok(()) => continue,
            Err(Trouble::Full) => 12,
            Err(Trouble::Misfit) => 13,
        };
        if fault() != 21 {
            route.fill(CLOSED);
        }
        return Told {
            number,
            ..Told::default()
        };
    }
    route[arcs..].fill(CLOSED);
    Told {
        distance,
        arcs: arcs as u64,
        ..Told::default()
    }
}

/// The pieces up to the meeting position and down from it, each as from and to.
fn pieces(from_start: &Labels, from_target: &Labels, meeting: usize) -> Vec<(usize, usize)> {
    let mut pieces = Vec::new();
    let mut p = meeting;
    while let Some((_, lower)) = from_start[p].filter(|&(_, lower)| lower != p) {
        pieces.insert(0, (lower, p));
        p = lower;
    }
    p = meeting;
    while let Some((_, lower)) = from_target[p].filter(|&(_, lower)| lower != p) {
        pieces.push((p, lower));
        p = lower;
    }
    pieces
}

fn open(
    asked: Asked,
    route: &mut [u32],
    arcs: &mut usize,
    from: usize,
    to: usize,
) -> Result<(), Trouble> {
    let (rows, order) = (Rows::of(asked.graph), asked.graph.order);
    let held = |from, to| rows.cost(asked.costs, from, to);
    let cost = held(from, to).ok_or(Trouble::Misfit)?;
    if fault() == 16 && *arcs == route.len() {
        return Err(Trouble::Full);
    }
    if let Some((arc, price)) = road(asked.roads, order[from], order[to]) {
        if price == cost || (fault() == 37 && price < cost) {
            let place = route.get_mut(*arcs).ok_or(Trouble::Full)?;
            *place = arc;
            *arcs += 1;
            return Ok(());
        }
    }
    let fits = |&z: &usize| match (held(from, z), held(z, to)) {
        (Some(a), Some(b)) if fault() == 29 => a.wrapping_add(b) == cost,
        (Some(a), Some(b)) => u64::from(a) + u64::from(b) == u64::from(cost),
        _ => false,
    };
    let mut lower = 0..from.min(to);
    let z = match fault() {
        13 => lower.rfind(fits),
        _ => lower.find(fits),
    };
    let z = z.ok_or(Trouble::Misfit)?;
    open(asked, route, arcs, from, z)?;
    open(asked, route, arcs, z, to)
}
