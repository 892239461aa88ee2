//! Route: pieces opened into arcs by two functions that call each other.

use crate::distance::{label, meet};
use crate::hierarchy::{self, Rows};
use crate::{checks, Refusal, CLOSED, END, MOST_ARCS, MOST_JUNCTIONS, NO_LABEL};

/// A distance and the number of arcs in the route list.
#[derive(Clone, Copy, Debug, PartialEq, Eq)]
pub struct Drive {
    /// The distance.
    pub distance: u64,
    /// The number of arcs.
    pub arcs: usize,
}

/// Writes the route between two junctions, or none.
#[allow(clippy::too_many_arguments)]
pub fn route(
    tails: &[u32],
    heads: &[u32],
    costs: &[u32],
    order: &[u32],
    rank: &[u32],
    first: &[u32],
    row_heads: &[u32],
    up: &[u32],
    down: &[u32],
    from: u32,
    to: u32,
    route: &mut [u32],
) -> Result<Option<Drive>, Refusal> {
    let n = order.len();
    checks::junctions(n)?;
    checks::three_lists(tails, heads, costs)?;
    checks::arc_ends(n, tails, heads)?;
    let edges = hierarchy::check(order, rank, first, row_heads)?;
    let rows = Rows {
        first,
        heads: row_heads,
    };
    edges_of_arcs(tails, heads, rank, rows)?;
    checks::arc_costs(costs)?;
    checks::cost_lists(edges, up, down)?;
    checks::question(n, from, to)?;

    let (s, t) = (rank[from as usize] as usize, rank[to as usize] as usize);
    let mut ends = Ends {
        from_start: [NO_LABEL; MOST_JUNCTIONS],
        from_target: [NO_LABEL; MOST_JUNCTIONS],
        before: [END; MOST_JUNCTIONS],
        after: [END; MOST_JUNCTIONS],
    };
    label(rows, up, s, &mut ends.from_start, |high, low| {
        ends.before[high] = low as u16;
    });
    label(rows, down, t, &mut ends.from_target, |high, low| {
        ends.after[high] = low as u16;
    });
    let Some((distance, meeting)) = meet(rows, s, &ends.from_start, &ends.from_target) else {
        route.fill(CLOSED);
        return Ok(None);
    };
    let mut opener = Opener {
        heads,
        costs,
        order,
        rows,
        up,
        down,
        last_arc: [END; MOST_JUNCTIONS],
        earlier_arc: [END; MOST_ARCS],
        first_child: [END; MOST_JUNCTIONS],
        next_child: [END; MOST_JUNCTIONS],
        route,
        arcs: 0,
    };
    opener.index_arcs(tails);
    opener.index_children();
    match opener.drive(s, meeting, t, &mut ends) {
        Ok(()) => {
            let arcs = opener.arcs;
            route[arcs..].fill(CLOSED);
            Ok(Some(Drive { distance, arcs }))
        }
        Err(refusal) => {
            route.fill(CLOSED);
            Err(refusal)
        }
    }
}

/// 8
fn edges_of_arcs(tails: &[u32], heads: &[u32], rank: &[u32], rows: Rows) -> Result<(), Refusal> {
    for (arc, (&tail, &head)) in tails.iter().zip(heads).enumerate() {
        let (a, b) = (rank[tail as usize] as usize, rank[head as usize] as usize);
        if a != b && rows.place(a.min(b), a.max(b)).is_none() {
            return Err(Refusal::ArcWithoutEdge(arc));
        }
    }
    Ok(())
}

/// The labels of both ends, and which position comes before or after each on the way.
struct Ends {
    from_start: [u64; MOST_JUNCTIONS],
    from_target: [u64; MOST_JUNCTIONS],
    before: [u16; MOST_JUNCTIONS],
    after: [u16; MOST_JUNCTIONS],
}

/// What opening pieces needs, and the route as far as it is written.
struct Opener<'a> {
    heads: &'a [u32],
    costs: &'a [u32],
    order: &'a [u32],
    rows: Rows<'a>,
    up: &'a [u32],
    down: &'a [u32],
    last_arc: [u16; MOST_JUNCTIONS],
    earlier_arc: [u16; MOST_ARCS],
    first_child: [u16; MOST_JUNCTIONS],
    next_child: [u16; MOST_JUNCTIONS],
    route: &'a mut [u32],
    arcs: usize,
}

impl Opener<'_> {
    /// Arcs by their tail, the latest first.
    fn index_arcs(&mut self, tails: &[u32]) {
        for (arc, &tail) in tails.iter().enumerate() {
            self.earlier_arc[arc] = self.last_arc[tail as usize];
            self.last_arc[tail as usize] = arc as u16;
        }
    }

    /// Positions by their parent.
    fn index_children(&mut self) {
        for p in 0..self.order.len() {
            let row = self.rows.places(p);
            if !row.is_empty() {
                let parent = self.rows.heads[row.start] as usize;
                self.next_child[p] = self.first_child[parent];
                self.first_child[parent] = p as u16;
            }
        }
    }

    /// Up from the start to the meeting position, then down to the target.
    fn drive(
        &mut self,
        s: usize,
        meeting: usize,
        t: usize,
        ends: &mut Ends,
    ) -> Result<(), Refusal> {
        // turn the way to the meeting position round, so that it is driven from the start
        let mut p = meeting;
        let mut following = END;
        while p != s {
            let before = ends.before[p];
            ends.before[p] = following;
            following = p as u16;
            p = before as usize;
        }
        ends.before[s] = following;
        while p != meeting {
            let higher = ends.before[p] as usize;
            self.open_up(p, higher)?;
            p = higher;
        }
        while p != t {
            let lower = ends.after[p] as usize;
            self.open_down(p, lower)?;
            p = lower;
        }
        Ok(())
    }

    /// Opens the piece from a position up to a higher one.
    fn open_up(&mut self, low: usize, high: usize) -> Result<(), Refusal> {
        let place = self
            .rows
            .place(low, high)
            .ok_or(Refusal::PieceFitsNothing)?;
        let cost = self.up[place];
        if let Some(arc) = self.fitting_arc(low, high, cost) {
            return self.write(arc);
        }
        let rows = self.rows;
        let (up, down) = (self.up, self.down);
        let z = self.lowest_middle(low, |z| {
            let (to_low, to_high) = rows.two_places(z, low, high)?;
            Some(fits(down[to_low], up[to_high], cost))
        });
        let z = z.ok_or(Refusal::PieceFitsNothing)?;
        self.open_down(low, z)?;
        self.open_up(z, high)
    }

    /// Opens the piece from a position down to a lower one.
    fn open_down(&mut self, high: usize, low: usize) -> Result<(), Refusal> {
        let place = self
            .rows
            .place(low, high)
            .ok_or(Refusal::PieceFitsNothing)?;
        let cost = self.down[place];
        if let Some(arc) = self.fitting_arc(high, low, cost) {
            return self.write(arc);
        }
        let rows = self.rows;
        let (up, down) = (self.up, self.down);
        let z = self.lowest_middle(low, |z| {
            let (to_low, to_high) = rows.two_places(z, low, high)?;
            Some(fits(down[to_high], up[to_low], cost))
        });
        let z = z.ok_or(Refusal::PieceFitsNothing)?;
        self.open_down(high, z)?;
        self.open_up(z, low)
    }

    /// The arc in force from one position to another, if it has the piece's cost.
    fn fitting_arc(&self, from: usize, to: usize, cost: u32) -> Option<u32> {
        let head = self.order[to];
        let mut arc = self.last_arc[self.order[from] as usize];
        while arc != END {
            if self.heads[arc as usize] == head {
                let fits = self.costs[arc as usize] == cost && cost != CLOSED;
                return fits.then_some(u32::from(arc));
            }
            arc = self.earlier_arc[arc as usize];
        }
        None
    }

    /// The lowest position below both ends of an edge that fits, by a walk over the tree below its low end. `offer`
    /// says of a position whether it is joined to both ends, and then whether its costs fit. Below a position that isn't
    /// joined to both there is none that is.
    fn lowest_middle(&self, low: usize, offer: impl Fn(usize) -> Option<bool>) -> Option<usize> {
        let mut lowest = None;
        let mut z = self.first_child[low];
        if z == END {
            return None;
        }
        loop {
            if let Some(fits) = offer(z as usize) {
                if fits && lowest.is_none_or(|least| (z as usize) < least) {
                    lowest = Some(z as usize);
                }
                if self.first_child[z as usize] != END {
                    z = self.first_child[z as usize];
                    continue;
                }
            }
            while self.next_child[z as usize] == END {
                let parent = self.rows.heads[self.rows.places(z as usize).start];
                if parent as usize == low {
                    return lowest;
                }
                z = parent as u16;
            }
            z = self.next_child[z as usize];
        }
    }

    /// The next arc of the route.
    fn write(&mut self, arc: u32) -> Result<(), Refusal> {
        let Some(place) = self.route.get_mut(self.arcs) else {
            return Err(Refusal::RouteRoom);
        };
        *place = arc;
        self.arcs += 1;
        Ok(())
    }
}

/// Whether two costs are finite and add up.
fn fits(first: u32, second: u32, sum: u32) -> bool {
    first != CLOSED && second != CLOSED && u64::from(first) + u64::from(second) == u64::from(sum)
}
