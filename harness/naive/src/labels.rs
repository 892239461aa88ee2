//! "Distance": labels and the meeting position, every lower position tried for each.

use crate::graph::Graph;
use crate::CLOSED;

/// Whether costs are read from an edge's lower end to its higher end, or the other way.
#[derive(Clone, Copy, PartialEq, Eq)]
pub enum Way {
    /// Along the up list.
    Up,
    /// Along the down list.
    Down,
}

/// A hierarchy with its costs, as the lists say them.
pub struct Held<'a> {
    /// Its graph.
    pub graph: Graph,
    /// The list of up costs.
    pub up: &'a [u32],
    /// The list of down costs.
    pub down: &'a [u32],
}

impl Held<'_> {
    /// The cost held from one position to another, if they are joined and it isn't CLOSED.
    pub fn cost(&self, from: usize, to: usize) -> Option<u64> {
        let place = self.graph.place(from, to)?;
        let cost = if from < to {
            self.up[place]
        } else {
            self.down[place]
        };
        (cost != CLOSED).then_some(u64::from(cost))
    }
}

/// A label, and the lower position that it comes from; the end itself has no such position.
#[derive(Clone, Copy, Debug, PartialEq, Eq)]
pub struct Label {
    /// The sum of the costs.
    pub sum: u64,
    /// The lowest q that gives it.
    pub from: Option<usize>,
}

/// "From the start s, label s with 0; any higher position p gets the least of label(q) + up cost of (q, p) over lower
/// labelled q, or no label. A CLOSED cost gives no label. From the target t likewise with down costs." "Ties: the
/// lowest q".
pub fn labels(held: &Held, end: usize, way: Way) -> Vec<Option<Label>> {
    let n = held.graph.size();
    let mut labels: Vec<Option<Label>> = vec![None; n];
    labels[end] = Some(Label { sum: 0, from: None });
    for p in end + 1..n {
        let mut least: Option<Label> = None;
        for q in 0..p {
            let Some(lower) = labels[q] else { continue };
            if !held.graph.joined(q, p) {
                continue;
            }
            let step = match way {
                Way::Up => held.cost(q, p),
                Way::Down => held.cost(p, q),
            };
            if let Some(step) = step {
                let sum = lower.sum + step;
                if least.is_none_or(|label| sum < label.sum) {
                    least = Some(Label { sum, from: Some(q) });
                }
            }
        }
        labels[p] = least;
    }
    labels
}

/// Where the labels of both ends meet, and at what sum.
#[derive(Clone, Copy, Debug, PartialEq, Eq)]
pub struct Meeting {
    /// The distance.
    pub sum: u64,
    /// The lowest position with that sum.
    pub position: usize,
}

/// "The distance is the least sum of both labels at one position, or "none"." "Ties: .. the lowest meeting position."
pub fn meeting(from_start: &[Option<Label>], from_target: &[Option<Label>]) -> Option<Meeting> {
    let mut least: Option<Meeting> = None;
    for position in 0..from_start.len() {
        if let (Some(a), Some(b)) = (from_start[position], from_target[position]) {
            let sum = a.sum + b.sum;
            if least.is_none_or(|meeting| sum < meeting.sum) {
                least = Some(Meeting { sum, position });
            }
        }
    }
    least
}
