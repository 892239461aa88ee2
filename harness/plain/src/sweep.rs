//! The sweeps: labels up from one end, then every position from the highest down.

use crate::distance::label;
use crate::hierarchy::{self, Rows};
use crate::{checks, Refusal, CLOSED, MOST_JUNCTIONS, NO_LABEL};

/// Writes the distance of every junction. The costs are those of the way up from the end, then those of the way down
/// to each junction.
#[allow(clippy::too_many_arguments)]
pub fn sweep(
    order: &[u32],
    rank: &[u32],
    first: &[u32],
    row_heads: &[u32],
    climb: &[u32],
    descent: &[u32],
    end: u32,
    distances: &mut [u32],
) -> Result<(), Refusal> {
    let n = order.len();
    checks::junctions(n)?;
    let edges = hierarchy::check(order, rank, first, row_heads)?;
    checks::cost_lists(edges, climb, descent)?;
    checks::question(n, end, end)?;
    checks::distance_list(n, distances)?;
    let rows = Rows {
        first,
        heads: row_heads,
    };
    let mut far = [NO_LABEL; MOST_JUNCTIONS];
    label(
        rows,
        climb,
        rank[end as usize] as usize,
        &mut far,
        |_, _| (),
    );
    descend(n, rows, descent, &mut far);
    write(rank, &far, distances).inspect_err(|_| distances.fill(CLOSED))
}

/// Each position's distance is its label, or less by way of a higher neighbour, whose distance is final.
fn descend(n: usize, rows: Rows, costs: &[u32], far: &mut [u64; MOST_JUNCTIONS]) {
    for p in (0..n).rev() {
        let row = rows.places(p);
        let mut least = far[p];
        for (&head, &cost) in rows.heads[row.clone()].iter().zip(&costs[row]) {
            if cost != CLOSED {
                // what has no label keeps having none
                least = least.min(far[head as usize].saturating_add(u64::from(cost)));
            }
        }
        far[p] = least;
    }
}

/// 16, and the distances by junction as far as that.
fn write(rank: &[u32], far: &[u64; MOST_JUNCTIONS], distances: &mut [u32]) -> Result<(), Refusal> {
    for (junction, (place, &position)) in distances.iter_mut().zip(rank).enumerate() {
        *place = match far[position as usize] {
            NO_LABEL => CLOSED,
            tenths if tenths < u64::from(CLOSED) => tenths as u32,
            _ => return Err(Refusal::TooFar(junction)),
        };
    }
    Ok(())
}
