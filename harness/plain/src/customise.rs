//! Customise: arc costs onto edges, then triangles upward.

use crate::hierarchy::{self, Rows};
use crate::{checks, Refusal, CLOSED, END, MOST_ARCS, MOST_JUNCTIONS};

/// Writes the up and the down costs.
#[allow(clippy::too_many_arguments)]
pub fn customise(
    tails: &[u32],
    heads: &[u32],
    costs: &[u32],
    order: &[u32],
    rank: &[u32],
    first: &[u32],
    row_heads: &[u32],
    up: &mut [u32],
    down: &mut [u32],
) -> Result<(), Refusal> {
    let n = order.len();
    checks::junctions(n)?;
    checks::three_lists(tails, heads, costs)?;
    checks::arc_ends(n, tails, heads)?;
    let edges = hierarchy::check(order, rank, first, row_heads)?;
    let rows = Rows {
        first,
        heads: row_heads,
    };
    let mut places = [0; MOST_ARCS];
    find_edges(tails, heads, rank, rows, &mut places)?;
    checks::arc_costs(costs)?;
    checks::cost_lists(edges, up, down)?;

    up.fill(CLOSED);
    down.fill(CLOSED);
    // a later listing replaces an earlier one
    for (arc, (&tail, &head)) in tails.iter().zip(heads).enumerate() {
        let place = places[arc] as usize;
        if rank[tail as usize] < rank[head as usize] {
            up[place] = costs[arc];
        } else if tail != head {
            down[place] = costs[arc];
        }
    }
    take_triangles(n, rows, up, down);
    Ok(())
}

/// 8, and the place of each arc's edge.
fn find_edges(
    tails: &[u32],
    heads: &[u32],
    rank: &[u32],
    rows: Rows,
    places: &mut [u32; MOST_ARCS],
) -> Result<(), Refusal> {
    for (arc, (&tail, &head)) in tails.iter().zip(heads).enumerate() {
        let (a, b) = (rank[tail as usize] as usize, rank[head as usize] as usize);
        if a != b {
            let place = rows.place(a.min(b), a.max(b));
            places[arc] = place.ok_or(Refusal::ArcWithoutEdge(arc))? as u32;
        }
    }
    Ok(())
}

/// For x upward: every lower row that holds x offers ways from x over its own position to what it holds above x. Its
/// costs are final, for all of its triangles have a lower low end.
fn take_triangles(n: usize, rows: Rows, up: &mut [u32], down: &mut [u32]) {
    // the rows whose next entry is x, as a chain, and where in the row that entry stands
    let mut chain = [END; MOST_JUNCTIONS];
    let mut next = [END; MOST_JUNCTIONS];
    let mut entry = [0u32; MOST_JUNCTIONS];
    // row x spread out by position
    let mut upward = [CLOSED; MOST_JUNCTIONS];
    let mut downward = [CLOSED; MOST_JUNCTIONS];
    for x in 0..n {
        let row = rows.places(x);
        for place in row.clone() {
            let y = rows.heads[place] as usize;
            upward[y] = up[place];
            downward[y] = down[place];
        }
        let mut z = chain[x];
        while z != END {
            let following = next[z as usize];
            let place = entry[z as usize] as usize;
            let rest = place + 1..rows.places(z as usize).end;
            let (to_z, from_z) = (down[place], up[place]);
            let above = rows.heads[rest.clone()].iter();
            let costs = up[rest.clone()].iter().zip(&down[rest.clone()]);
            for (&y, (&on, &back)) in above.zip(costs) {
                let y = y as usize;
                upward[y] = upward[y].min(to_z.saturating_add(on));
                downward[y] = downward[y].min(back.saturating_add(from_z));
            }
            if !rest.is_empty() {
                let y = rows.heads[rest.start] as usize;
                entry[z as usize] = rest.start as u32;
                next[z as usize] = chain[y];
                chain[y] = z;
            }
            z = following;
        }
        for place in row.clone() {
            let y = rows.heads[place] as usize;
            up[place] = upward[y];
            down[place] = downward[y];
        }
        if !row.is_empty() {
            let y = rows.heads[row.start] as usize;
            entry[x] = row.start as u32;
            next[x] = chain[y];
            chain[y] = x as u16;
        }
    }
}
