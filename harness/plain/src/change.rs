//! Change: one arc's cost, carried up the chain of parents above the arc's lower end.

use crate::hierarchy::{self, Rows};
use crate::{checks, Refusal, CLOSED, END, MOST_ARCS, MOST_JUNCTIONS};

/// Words of flags, a bit for each edge: enough for 65,536 edges, and for as many as there can be.
const FEW: usize = 1_024;
const ALL: usize = (MOST_JUNCTIONS * (MOST_JUNCTIONS - 1) / 2).div_ceil(64);

/// Gives one arc another cost, and replies how many lower triangles of reconsidered edges there are.
#[allow(clippy::too_many_arguments)]
pub fn change(
    tails: &[u32],
    heads: &[u32],
    costs: &mut [u32],
    order: &[u32],
    rank: &[u32],
    first: &[u32],
    row_heads: &[u32],
    up: &mut [u32],
    down: &mut [u32],
    arc: u32,
    cost: u32,
) -> Result<u64, Refusal> {
    let n = order.len();
    checks::junctions(n)?;
    checks::three_lists(tails, heads, costs)?;
    checks::arc_ends(n, tails, heads)?;
    let edges = hierarchy::check(order, rank, first, row_heads)?;
    let rows = Rows {
        first,
        heads: row_heads,
    };
    let mut threads = Threads {
        last: [END; MOST_JUNCTIONS],
        earlier: [END; MOST_ARCS],
    };
    threads.fill(tails, heads, rank, rows)?;
    checks::arc_costs(costs)?;
    checks::cost_lists(edges, up, down)?;
    checks::arc_number(tails.len(), arc)?;
    checks::new_cost(arc, cost)?;

    let arc = arc as usize;
    let old = std::mem::replace(&mut costs[arc], cost);
    let (tail, head) = (tails[arc], heads[arc]);
    let (a, b) = (rank[tail as usize] as usize, rank[head as usize] as usize);
    if a == b || old == cost || threads.is_replaced(tails, heads, a.min(b), arc) {
        return Ok(0);
    }
    let net = Net {
        tails,
        heads,
        costs,
        rank,
        rows,
        threads: &threads,
    };
    let pair = (a.min(b), a.max(b));
    Ok(match edges <= FEW * 64 {
        true => carry::<FEW>(net, up, down, pair),
        false => carry::<ALL>(net, up, down, pair),
    })
}

/// Arcs by the lower of their two positions, the latest first.
struct Threads {
    last: [u16; MOST_JUNCTIONS],
    earlier: [u16; MOST_ARCS],
}

impl Threads {
    /// 8, and the threads.
    fn fill(
        &mut self,
        tails: &[u32],
        heads: &[u32],
        rank: &[u32],
        rows: Rows,
    ) -> Result<(), Refusal> {
        for (arc, (&tail, &head)) in tails.iter().zip(heads).enumerate() {
            let (a, b) = (rank[tail as usize] as usize, rank[head as usize] as usize);
            if a != b {
                let low = a.min(b);
                if rows.place(low, a.max(b)).is_none() {
                    return Err(Refusal::ArcWithoutEdge(arc));
                }
                self.earlier[arc] = self.last[low];
                self.last[low] = arc as u16;
            }
        }
        Ok(())
    }

    /// Whether a later arc has the same tail and the same head.
    fn is_replaced(&self, tails: &[u32], heads: &[u32], low: usize, arc: usize) -> bool {
        let mut other = self.last[low] as usize;
        while tails[other] != tails[arc] || heads[other] != heads[arc] {
            other = self.earlier[other] as usize;
        }
        other != arc
    }
}

/// The roads as they are now, and the graph over them.
#[derive(Clone, Copy)]
struct Net<'a> {
    tails: &'a [u32],
    heads: &'a [u32],
    costs: &'a [u32],
    rank: &'a [u32],
    rows: Rows<'a>,
    threads: &'a Threads,
}

/// Where a position stands in the lists of all positions. Every position does; the compiler is told so.
fn slot(position: u32) -> usize {
    position as usize % MOST_JUNCTIONS
}

/// An edge of the row whose turn it is, by its higher end: whether it is reconsidered, and whether the arc in force of
/// either direction has been found.
const MARKED: u8 = 1;
const UP_FOUND: u8 = 2;
const DOWN_FOUND: u8 = 4;

/// What is kept while the change goes up.
struct Carriage<'a, const WORDS: usize> {
    net: Net<'a>,
    up: &'a mut [u32],
    down: &'a mut [u32],
    /// Which positions stand on the chain of parents above the arc's lower end: only their rows can change.
    on_chain: [bool; MOST_JUNCTIONS],
    /// The rows that wait for a position of the chain, as chains of indices, and the place of their entry for it.
    waiting: [u16; MOST_JUNCTIONS],
    next: [u16; MOST_JUNCTIONS],
    entry: [u32; MOST_JUNCTIONS],
    /// The lower rows that have entries above the position whose turn it is: the places of its entry and of their end.
    met: [(u32, u32); MOST_JUNCTIONS],
    met_rows: usize,
    /// The marks of the row whose turn it is, and its new costs so far.
    marks: [u8; MOST_JUNCTIONS],
    marked: usize,
    upward: [u64; MOST_JUNCTIONS],
    downward: [u64; MOST_JUNCTIONS],
    /// The edges that changed, and the rows that have some.
    flags: [u64; WORDS],
    is_dirty: [bool; MOST_JUNCTIONS],
}

/// Carries the change of the road between two positions upward.
fn carry<const WORDS: usize>(
    net: Net,
    up: &mut [u32],
    down: &mut [u32],
    (low, high): (usize, usize),
) -> u64 {
    let mut carriage = Carriage::<WORDS> {
        net,
        up,
        down,
        on_chain: [false; MOST_JUNCTIONS],
        waiting: [END; MOST_JUNCTIONS],
        next: [END; MOST_JUNCTIONS],
        entry: [0; MOST_JUNCTIONS],
        met: [(0, 0); MOST_JUNCTIONS],
        met_rows: 0,
        marks: [0; MOST_JUNCTIONS],
        marked: 0,
        upward: [0; MOST_JUNCTIONS],
        downward: [0; MOST_JUNCTIONS],
        flags: [0; WORDS],
        is_dirty: [false; MOST_JUNCTIONS],
    };
    carriage.find_chain(low);
    (0..low).for_each(|x| carriage.wait_for_chain(x));
    carriage.mark(high);
    let mut triangles = carriage.turn(low);
    // nothing changes above the last entries of the rows that did
    let mut reach = carriage.reach(low);
    let mut x = low + 1;
    while x < reach {
        if carriage.on_chain[x] {
            triangles += carriage.turn(x);
            reach = reach.max(carriage.reach(x));
        } else {
            carriage.wait_for_chain(x);
        }
        x += 1;
    }
    triangles
}

impl<const WORDS: usize> Carriage<'_, WORDS> {
    fn find_chain(&mut self, low: usize) {
        let rows = self.net.rows;
        let mut p = low;
        loop {
            self.on_chain[p] = true;
            let row = rows.places(p);
            if row.is_empty() {
                return;
            }
            p = rows.heads[row.start] as usize;
        }
    }

    /// Has a row wait for the lowest of its entries that stand on the chain: they are its last ones.
    fn wait_for_chain(&mut self, z: usize) {
        let row = self.net.rows.places(z);
        let on_chain = |&head: &u32| self.on_chain[head as usize];
        let heads = self.net.rows.heads[row.clone()].iter();
        let entries = heads.rev().take_while(|head| on_chain(head)).count();
        if entries > 1 {
            self.wait(z, row.end - entries);
        }
    }

    /// Has a row wait for the entry at a place.
    fn wait(&mut self, z: usize, place: usize) {
        let y = slot(self.net.rows.heads[place]);
        self.entry[z] = place as u32;
        self.next[z] = self.waiting[y];
        self.waiting[y] = z as u16;
    }

    /// The last entry of a row that has changed.
    fn reach(&self, x: usize) -> usize {
        match self.is_dirty[x] {
            true => self.net.rows.heads[self.net.rows.places(x).end - 1] as usize,
            false => 0,
        }
    }

    /// The turn of a position of the chain: its row's edges are marked, those marked get their new costs, and the row
    /// waits in its turn. How many lower triangles they have.
    fn turn(&mut self, x: usize) -> u64 {
        self.gather(x);
        let mut triangles = 0;
        if self.marked > 0 {
            self.lay_roads(x);
            triangles = self.look();
            self.is_dirty[x] = self.settle(x);
        }
        let row = self.net.rows.places(x);
        if row.len() > 1 {
            self.wait(x, row.start);
        }
        triangles
    }

    /// Meets the rows that wait for x, marks what they have changed, and has them wait for their next entry but the last.
    fn gather(&mut self, x: usize) {
        self.met_rows = 0;
        let mut z = self.waiting[x];
        while z != END {
            let row = slot(u32::from(z));
            z = self.next[row];
            let place = self.entry[row] as usize;
            let end = self.net.rows.first[row + 1] as usize;
            self.met[self.met_rows] = (place as u32, end as u32);
            self.met_rows += 1;
            if self.is_dirty[row] {
                self.mark_changed(place, end);
            }
            if place + 2 < end {
                self.wait(row, place + 1);
            }
        }
    }

    /// Marks the edges whose triangle over a changed row has a changed edge: the entry at the place, or their own.
    fn mark_changed(&mut self, place: usize, end: usize) {
        if self.flags[place / 64] >> (place % 64) & 1 == 1 {
            let above = self.net.rows.heads[place + 1..end].iter();
            return above.for_each(|&y| self.mark(slot(y)));
        }
        // the flags past the place, word by word
        let mut start = place + 1;
        while start < end {
            let base = start - start % 64;
            let mut flags = self.flags[start / 64] >> (start % 64) << (start % 64);
            if end - base < 64 {
                flags &= (1 << (end - base)) - 1;
            }
            while flags != 0 {
                let above = base + flags.trailing_zeros() as usize;
                self.mark(slot(self.net.rows.heads[above]));
                flags &= flags - 1;
            }
            start = base + 64;
        }
    }

    fn mark(&mut self, y: usize) {
        if self.marks[y] == 0 {
            self.marks[y] = MARKED;
            self.upward[y] = u64::from(CLOSED);
            self.downward[y] = u64::from(CLOSED);
            self.marked += 1;
        }
    }

    /// The arcs in force of the marked edges of row x: the latest of each direction.
    fn lay_roads(&mut self, x: usize) {
        let net = self.net;
        let mut thread = net.threads.last[x];
        while thread != END {
            let arc = thread as usize;
            thread = net.threads.earlier[arc];
            let tail = net.rank[net.tails[arc] as usize] as usize;
            let head = net.rank[net.heads[arc] as usize] as usize;
            let (y, found, costs) = match tail == x {
                true => (head, UP_FOUND, &mut self.upward),
                false => (tail, DOWN_FOUND, &mut self.downward),
            };
            if self.marks[y] & (MARKED | found) == MARKED {
                self.marks[y] |= found;
                costs[y] = u64::from(net.costs[arc]);
            }
        }
    }

    /// Takes the ways over the rows met, for marked edges only, and counts them.
    fn look(&mut self) -> u64 {
        let mut triangles = 0;
        for &(place, end) in &self.met[..self.met_rows] {
            let (place, end) = (place as usize, end as usize);
            let heads = &self.net.rows.heads[..end];
            let (up, down) = (&self.up[..end], &self.down[..end]);
            let (to_z, from_z) = (u64::from(down[place]), u64::from(up[place]));
            for above in place + 1..end {
                let y = slot(heads[above]);
                if self.marks[y] != 0 {
                    // no sum of CLOSED or more is less than what stands
                    self.upward[y] = self.upward[y].min(to_z + u64::from(up[above]));
                    self.downward[y] = self.downward[y].min(u64::from(down[above]) + from_z);
                    triangles += 1;
                }
            }
        }
        triangles
    }

    /// Writes the new costs of the marked edges of row x, takes their marks away, and flags those that changed: whether
    /// there is one.
    fn settle(&mut self, x: usize) -> bool {
        let mut is_dirty = false;
        for place in self.net.rows.places(x) {
            let y = self.net.rows.heads[place] as usize;
            if std::mem::take(&mut self.marks[y]) == 0 {
                continue;
            }
            let (up, down) = (self.upward[y] as u32, self.downward[y] as u32);
            if self.up[place] != up || self.down[place] != down {
                self.up[place] = up;
                self.down[place] = down;
                self.flags[place / 64] |= 1 << (place % 64);
                is_dirty = true;
            }
        }
        self.marked = 0;
        is_dirty
    }
}
