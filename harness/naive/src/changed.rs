//! "One closure without redoing the county", request b of document 02, sentence by sentence: every edge has its turn, and
//! every lower position is tried for it.

use crate::graph::Graph;
use crate::roads::Roads;
use crate::CLOSED;

/// The roads before and after one arc got its new cost, and the edges they lie under.
pub struct Change<'a> {
    /// Which positions are joined.
    pub graph: &'a Graph,
    /// The order.
    pub order: &'a [u32],
    /// The arcs in force before.
    pub before: &'a Roads,
    /// The arcs in force after.
    pub after: &'a Roads,
}

/// The edges' costs, by place.
#[derive(Clone, Debug, PartialEq, Eq)]
pub struct EdgeCosts {
    /// Up costs.
    pub up: Vec<u32>,
    /// Down costs.
    pub down: Vec<u32>,
}

impl Change<'_> {
    /// The costs that the change leaves of the old ones, and the sum, over the edges reconsidered, of the number of their
    /// lower triangles. "In every case edges go by ascending low end .. no other edge changes."
    pub fn carry(&self, old: &EdgeCosts) -> (EdgeCosts, u64) {
        let mut standing = old.clone();
        let mut triangles = 0;
        for x in 0..self.graph.size() {
            for y in self.graph.row(x).into_iter().map(|y| y as usize) {
                let below = self.below(x, y);
                if self.is_reconsidered(x, y, &below, old, &standing) {
                    self.reconsider(x, y, &below, &mut standing);
                    triangles += below.len() as u64;
                }
            }
        }
        (standing, triangles)
    }

    /// "each z below x joined to both", of the edge (x, y)
    fn below(&self, x: usize, y: usize) -> Vec<usize> {
        let joined_to_both = |&z: &usize| self.graph.joined(x, z) && self.graph.joined(y, z);
        (0..x).filter(joined_to_both).collect()
    }

    /// "one is reconsidered if its pair's cost in force changed, or a lower triangle of it has an edge whose up or down
    /// cost changed"
    fn is_reconsidered(
        &self,
        x: usize,
        y: usize,
        below: &[usize],
        old: &EdgeCosts,
        standing: &EdgeCosts,
    ) -> bool {
        let changed = |a: usize, b: usize| {
            let place = self.graph.place(a, b).expect("an edge");
            old.up[place] != standing.up[place] || old.down[place] != standing.down[place]
        };
        let in_force = |roads, from, to| self.in_force(roads, from, to);
        in_force(self.before, x, y) != in_force(self.after, x, y)
            || in_force(self.before, y, x) != in_force(self.after, y, x)
            || below.iter().any(|&z| changed(x, z) || changed(y, z))
    }

    /// "It gets both costs by document 01's rule from those then standing"
    fn reconsider(&self, x: usize, y: usize, below: &[usize], standing: &mut EdgeCosts) {
        let up = self.least(x, y, below, standing);
        let down = self.least(y, x, below, standing);
        let place = self.graph.place(x, y).expect("an edge");
        standing.up[place] = up;
        standing.down[place] = down;
    }

    /// "the least of: the cost of the arc in force in that direction, if any; and, for each z below x joined to both, the
    /// cost of x to z plus z to y"; "a sum of CLOSED or more being CLOSED"
    fn least(&self, from: usize, to: usize, below: &[usize], standing: &EdgeCosts) -> u32 {
        let closed = u64::from(CLOSED);
        let mut least = self
            .in_force(self.after, from, to)
            .map_or(closed, u64::from);
        for &z in below {
            let sum = self.cost(from, z, standing) + self.cost(z, to, standing);
            let sum = if sum >= closed { closed } else { sum };
            least = least.min(sum);
        }
        least as u32
    }

    /// The cost then standing from one position to another.
    fn cost(&self, from: usize, to: usize, standing: &EdgeCosts) -> u64 {
        let place = self.graph.place(from, to).expect("an edge");
        u64::from(match from < to {
            true => standing.up[place],
            false => standing.down[place],
        })
    }

    /// The cost of the arc in force from one position to another, if any.
    fn in_force(&self, roads: &Roads, from: usize, to: usize) -> Option<u32> {
        let road = roads.get(self.order[from], self.order[to]);
        road.map(|road| road.cost)
    }
}
