//! Distance: labels along the chain of parents, and where they meet.

use crate::hierarchy::{self, Rows};
use crate::{checks, Refusal, CLOSED, MOST_JUNCTIONS, NO_LABEL};

/// The distance between two junctions, or none.
#[allow(clippy::too_many_arguments)]
pub fn distance(
    order: &[u32],
    rank: &[u32],
    first: &[u32],
    row_heads: &[u32],
    up: &[u32],
    down: &[u32],
    from: u32,
    to: u32,
) -> Result<Option<u64>, Refusal> {
    let n = order.len();
    checks::junctions(n)?;
    let edges = hierarchy::check(order, rank, first, row_heads)?;
    checks::cost_lists(edges, up, down)?;
    checks::question(n, from, to)?;
    let rows = Rows {
        first,
        heads: row_heads,
    };
    let (s, t) = (rank[from as usize] as usize, rank[to as usize] as usize);
    let mut from_start = [NO_LABEL; MOST_JUNCTIONS];
    let mut from_target = [NO_LABEL; MOST_JUNCTIONS];
    label(rows, up, s, &mut from_start, |_, _| ());
    label(rows, down, t, &mut from_target, |_, _| ());
    Ok(meet(rows, s, &from_start, &from_target).map(|(sum, _)| sum))
}

/// Labels from one end: only its chain of parents can get any. `comes` is told each time a position's label comes from
/// a lower one; the last time tells the lowest, as an equal sum later on changes nothing.
pub fn label(
    rows: Rows,
    costs: &[u32],
    end: usize,
    labels: &mut [u64; MOST_JUNCTIONS],
    mut comes: impl FnMut(usize, usize),
) {
    labels[end] = 0;
    let mut p = end;
    loop {
        let row = rows.places(p);
        let heads = &rows.heads[row.clone()];
        let label = labels[p];
        if label != NO_LABEL {
            for (&head, &cost) in heads.iter().zip(&costs[row]) {
                let old = &mut labels[head as usize];
                if cost != CLOSED && label + u64::from(cost) < *old {
                    *old = label + u64::from(cost);
                    comes(head as usize, p);
                }
            }
        }
        match heads.first() {
            Some(&parent) => p = parent as usize,
            None => return,
        }
    }
}

/// The least sum of both labels and the lowest position that has it, by a walk up the start's chain.
pub fn meet(
    rows: Rows,
    start: usize,
    from_start: &[u64; MOST_JUNCTIONS],
    from_target: &[u64; MOST_JUNCTIONS],
) -> Option<(u64, usize)> {
    let mut least = None;
    let mut p = start;
    loop {
        let (a, b) = (from_start[p], from_target[p]);
        if a != NO_LABEL && b != NO_LABEL && least.is_none_or(|(sum, _)| a + b < sum) {
            least = Some((a + b, p));
        }
        let row = rows.places(p);
        if row.is_empty() {
            return least;
        }
        p = rows.heads[row.start] as usize;
    }
}
