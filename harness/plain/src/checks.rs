//! The checks on sizes, arcs, the order and costs.

use crate::{Refusal, CLOSED, GREATEST, MOST_ARCS, MOST_JUNCTIONS};

/// 1
pub fn junctions(n: usize) -> Result<(), Refusal> {
    if n == 0 || n > MOST_JUNCTIONS {
        return Err(Refusal::JunctionCount);
    }
    Ok(())
}

/// 2 for build
pub fn two_lists(tails: &[u32], heads: &[u32]) -> Result<(), Refusal> {
    if tails.len() != heads.len() || tails.len() > MOST_ARCS {
        return Err(Refusal::ArcLists);
    }
    Ok(())
}

/// 2 for customise and route
pub fn three_lists(tails: &[u32], heads: &[u32], costs: &[u32]) -> Result<(), Refusal> {
    two_lists(tails, heads)?;
    if costs.len() != tails.len() {
        return Err(Refusal::ArcLists);
    }
    Ok(())
}

/// 3
pub fn arc_ends(n: usize, tails: &[u32], heads: &[u32]) -> Result<(), Refusal> {
    for (arc, (&tail, &head)) in tails.iter().zip(heads).enumerate() {
        if tail.max(head) as usize >= n {
            return Err(Refusal::ArcEnd(arc));
        }
    }
    Ok(())
}

/// 4
pub fn order(order: &[u32]) -> Result<(), Refusal> {
    let mut seen = [false; MOST_JUNCTIONS];
    for (position, &junction) in order.iter().enumerate() {
        if junction as usize >= order.len() || seen[junction as usize] {
            return Err(Refusal::OrderEntry(position));
        }
        seen[junction as usize] = true;
    }
    Ok(())
}

/// 4, and whether the rank list inverts the order, which is part of 7. Where it does, the order is a permutation.
pub fn order_and_rank(listed: &[u32], rank: &[u32]) -> Result<bool, Refusal> {
    let inverts = rank.len() == listed.len()
        && listed
            .iter()
            .zip(0..)
            .all(|(&junction, position)| rank.get(junction as usize) == Some(&position));
    if !inverts {
        order(listed)?;
    }
    Ok(inverts)
}

/// 9
pub fn arc_costs(costs: &[u32]) -> Result<(), Refusal> {
    for (arc, &cost) in costs.iter().enumerate() {
        if cost == 0 || (cost > GREATEST && cost != CLOSED) {
            return Err(Refusal::ArcCost(arc));
        }
    }
    Ok(())
}

/// 9 for a new cost
pub fn new_cost(arc: u32, cost: u32) -> Result<(), Refusal> {
    arc_costs(&[cost]).map_err(|_| Refusal::ArcCost(arc as usize))
}

/// 10
pub fn cost_lists(edges: usize, up: &[u32], down: &[u32]) -> Result<(), Refusal> {
    if up.len() < edges || down.len() < edges {
        return Err(Refusal::CostLists);
    }
    Ok(())
}

/// 11
pub fn question(n: usize, from: u32, to: u32) -> Result<(), Refusal> {
    if from.max(to) as usize >= n {
        return Err(Refusal::StartOrTarget);
    }
    Ok(())
}

/// 15
pub fn distance_list(n: usize, distances: &[u32]) -> Result<(), Refusal> {
    if distances.len() != n {
        return Err(Refusal::DistanceRoom);
    }
    Ok(())
}

/// 17
pub fn arc_number(arcs: usize, arc: u32) -> Result<(), Refusal> {
    if arc as usize >= arcs {
        return Err(Refusal::ArcNumber);
    }
    Ok(())
}
