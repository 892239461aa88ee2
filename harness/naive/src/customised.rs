//! "Customised costs", by the paper's equation as a recursion that remembers what it has worked out.

use crate::graph::Graph;
use crate::roads::Roads;
use crate::CLOSED;

/// What an edge costs one way: nothing is known yet, or the cost, None being CLOSED.
#[derive(Clone, Copy)]
enum Cost {
    Unknown,
    Known(Option<u64>),
}

/// The equation's parts, and the costs found so far: for each edge upward, then downward.
struct Equation<'a> {
    graph: &'a Graph,
    roads: &'a Roads,
    order: &'a [u32],
    known: Vec<[Cost; 2]>,
}

impl Equation<'_> {
    /// "Each is the least of: the cost of the arc in force in that direction, if any; and, for each z below x joined
    /// to both, the cost of x to z plus z to y (for down, y to z plus z to x)."
    fn cost(&mut self, from: usize, to: usize) -> Option<u64> {
        let place = self.graph.place(from, to).expect("an edge");
        let way = usize::from(from > to);
        if let Cost::Known(cost) = self.known[place][way] {
            return cost;
        }
        let mut least = self
            .roads
            .get(self.order[from], self.order[to])
            .map(|road| u64::from(road.cost));
        for z in 0..from.min(to) {
            if self.graph.joined(z, from) && self.graph.joined(z, to) {
                if let (Some(down), Some(up)) = (self.cost(from, z), self.cost(z, to)) {
                    least = Some(least.map_or(down + up, |cost| cost.min(down + up)));
                }
            }
        }
        self.known[place][way] = Cost::Known(least);
        least
    }
}

/// The up and the down cost of each edge at its place, CLOSED where "none is finite".
pub fn customised(graph: &Graph, order: &[u32], roads: &Roads) -> (Vec<u32>, Vec<u32>) {
    let mut equation = Equation {
        graph,
        roads,
        order,
        known: vec![[Cost::Unknown; 2]; graph.edges()],
    };
    let mut up = Vec::new();
    let mut down = Vec::new();
    for x in 0..graph.size() {
        for y in graph.row(x) {
            up.push(number(equation.cost(x, y as usize)));
            down.push(number(equation.cost(y as usize, x)));
        }
    }
    (up, down)
}

/// A customised cost as a list holds it. "Customised costs that aren't CLOSED are at most 4,095 × 500,000."
fn number(cost: Option<u64>) -> u32 {
    match cost {
        None => CLOSED,
        Some(cost) => {
            assert!(cost <= 4_095 * 500_000, "a customised cost of {cost}");
            cost as u32
        }
    }
}
