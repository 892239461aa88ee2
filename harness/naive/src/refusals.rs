//! "Numbers of refusal": each number's test, taken word by word. A test answers the place of the lowest fault, if any.

use crate::hierarchy::{is_hierarchy, row};
use crate::CLOSED;

/// A refusal's number and place.
#[derive(Clone, Copy, Debug, PartialEq, Eq)]
pub struct Refusal {
    /// The column "No."
    pub number: u32,
    /// The column "Place".
    pub place: u64,
}

/// A test's answer as a refusal.
pub fn refusal(number: u32, fault: Option<usize>) -> Option<Refusal> {
    fault.map(|place| Refusal {
        number,
        place: place as u64,
    })
}

fn at_0(faulty: bool) -> Option<usize> {
    faulty.then_some(0)
}

/// 1: "n is 0 or over 4,096"
pub fn junctions(n: usize) -> Option<usize> {
    at_0(n == 0 || n > 4_096)
}

/// 2: "arc lists differ in length or exceed 16,384"
pub fn arc_lists(lengths: &[usize]) -> Option<usize> {
    at_0(
        lengths
            .iter()
            .any(|&length| length != lengths[0] || length > 16_384),
    )
}

/// 3: "an arc end is n or more"
pub fn arc_ends(n: usize, tails: &[u32], heads: &[u32]) -> Option<usize> {
    (0..tails.len()).find(|&arc| tails[arc] as usize >= n || heads[arc] as usize >= n)
}

/// 4: "an order entry is n or more, or was seen earlier"
pub fn order_entries(order: &[u32]) -> Option<usize> {
    let mut seen = std::collections::BTreeSet::new();
    (0..order.len()).find(|&p| order[p] as usize >= order.len() || !seen.insert(order[p]))
}

/// 5: "rank room isn't n long or first room isn't n + 1"
pub fn rank_or_first_room(n: usize, rank: &[u32], first: &[u32]) -> Option<usize> {
    at_0(rank.len() != n || first.len() != n + 1)
}

/// 6: "heads room is shorter than E"
pub fn heads_room(edges: usize, heads: &[u32]) -> Option<usize> {
    at_0(heads.len() < edges)
}

/// 7: "the lists aren't a hierarchy"
pub fn hierarchy(order: &[u32], rank: &[u32], first: &[u32], heads: &[u32]) -> Option<usize> {
    at_0(!is_hierarchy(order, rank, first, heads))
}

/// 8: "an arc with unequal ends has no edge"
pub fn arcs_without_edge(
    tails: &[u32],
    heads: &[u32],
    rank: &[u32],
    first: &[u32],
    row_heads: &[u32],
) -> Option<usize> {
    (0..tails.len()).find(|&arc| {
        let a = rank[tails[arc] as usize];
        let b = rank[heads[arc] as usize];
        let has_edge = row(first, row_heads, a.min(b) as usize).contains(&a.max(b));
        tails[arc] != heads[arc] && !has_edge
    })
}

/// 9: "an arc cost is 0, or over 500,000 and not CLOSED"
pub fn arc_costs(costs: &[u32]) -> Option<usize> {
    costs.iter().position(|&cost| is_unlawful(cost))
}

fn is_unlawful(cost: u32) -> bool {
    cost == 0 || (cost > 500_000 && cost != CLOSED)
}

/// "9 for the new cost (place the arc)"
pub fn new_cost(arc: u32, cost: u32) -> Option<usize> {
    is_unlawful(cost).then_some(arc as usize)
}

/// 10: "up or down list is shorter than E"
pub fn cost_lists(edges: usize, up: &[u32], down: &[u32]) -> Option<usize> {
    at_0(up.len() < edges || down.len() < edges)
}

/// 11: "start or target is n or more"; a sweep has one of them only
pub fn start_or_target(n: usize, ends: &[u32]) -> Option<usize> {
    at_0(ends.iter().any(|&end| end as usize >= n))
}

/// 15: "the distance list isn't n long"
pub fn distance_list(n: usize, distances: &[u32]) -> Option<usize> {
    at_0(distances.len() != n)
}

/// 16: "the lowest junction whose distance isn't below CLOSED"; none is no distance
pub fn too_far(far: &[Option<u64>]) -> Option<usize> {
    far.iter()
        .position(|far| far.is_some_and(|far| far >= u64::from(CLOSED)))
}

/// 17: "an unlisted arc number"
pub fn arc_number(arcs: usize, arc: u32) -> Option<usize> {
    at_0(arc as usize >= arcs)
}
