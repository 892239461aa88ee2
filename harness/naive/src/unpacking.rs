//! "Route": the pieces, and what is met when they are opened.

use crate::labels::{Held, Label};
use crate::roads::Roads;

/// What is met on the way.
#[derive(Clone, Copy, Debug, PartialEq, Eq)]
pub enum Met {
    /// An arc to drive.
    Arc(u32),
    /// "a piece has neither a fitting arc nor a fitting z"
    Misfit,
}

/// "The pieces are the edges from s up to the meeting position, then those down to t", each as from and to.
pub fn pieces(
    from_start: &[Option<Label>],
    from_target: &[Option<Label>],
    meeting: usize,
) -> Vec<(usize, usize)> {
    let mut upward = steps(from_start, meeting);
    upward.reverse();
    let downward = steps(from_target, meeting)
        .into_iter()
        .map(|(lower, higher)| (higher, lower));
    upward.into_iter().chain(downward).collect()
}

/// The edges by which a position got its label, from the position back to the end, each as lower and higher.
fn steps(labels: &[Option<Label>], meeting: usize) -> Vec<(usize, usize)> {
    let mut steps = Vec::new();
    let mut position = meeting;
    while let Some(lower) = labels[position].expect("a labelled position").from {
        steps.push((lower, position));
        position = lower;
    }
    steps
}

/// Opens pieces "from the start of the route, each down to its arcs before the next". It stops at the first misfit, and
/// as soon as it has met more than `most` arcs.
pub fn met(
    held: &Held,
    roads: &Roads,
    order: &[u32],
    pieces: &[(usize, usize)],
    most: usize,
) -> Vec<Met> {
    let mut met = Vec::new();
    for &(from, to) in pieces {
        open(held, roads, order, from, to, most, &mut met);
    }
    met
}

/// "A piece with cost w is taken as the arc in force in its direction if that arc's cost is w; otherwise as its two
/// parts over the lowest z, below both ends and joined to both, whose costs are finite and add up to w."
fn open(
    held: &Held,
    roads: &Roads,
    order: &[u32],
    from: usize,
    to: usize,
    most: usize,
    met: &mut Vec<Met>,
) {
    if met.last() == Some(&Met::Misfit) || met.len() > most {
        return;
    }
    let cost = held.cost(from, to).expect("a piece has a finite cost");
    if let Some(road) = roads.get(order[from], order[to]) {
        if u64::from(road.cost) == cost {
            met.push(Met::Arc(road.arc));
            return;
        }
    }
    let lowest = (0..from.min(to)).find(
        |&z| matches!((held.cost(from, z), held.cost(z, to)), (Some(a), Some(b)) if a + b == cost),
    );
    match lowest {
        Some(z) => {
            open(held, roads, order, from, z, most, met);
            open(held, roads, order, z, to, most, met);
        }
        None => met.push(Met::Misfit),
    }
}
