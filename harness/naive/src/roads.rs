//! "An arc is in force if tail and head differ, its cost isn't CLOSED, and no later arc in the list has the same tail
//! and the same head."

use crate::CLOSED;
use std::collections::BTreeMap;

/// An arc in force: its number and its cost.
#[derive(Clone, Copy, Debug, PartialEq, Eq)]
pub struct Road {
    /// The arc's number.
    pub arc: u32,
    /// Its cost, never CLOSED.
    pub cost: u32,
}

/// The arcs in force, by tail and head.
pub struct Roads {
    between: BTreeMap<(u32, u32), Road>,
}

impl Roads {
    /// Reads the arcs in list order: "A later listing replaces an earlier one, even when the later is closed."
    pub fn of(tails: &[u32], heads: &[u32], costs: &[u32]) -> Roads {
        let mut listed = BTreeMap::new();
        for arc in 0..tails.len() {
            if tails[arc] != heads[arc] {
                let road = Road {
                    arc: arc as u32,
                    cost: costs[arc],
                };
                listed.insert((tails[arc], heads[arc]), road);
            }
        }
        listed.retain(|_, road| road.cost != CLOSED);
        Roads { between: listed }
    }

    /// The arc in force from one junction to another, if any.
    pub fn get(&self, tail: u32, head: u32) -> Option<Road> {
        self.between.get(&(tail, head)).copied()
    }

    /// The same arcs, each driven the other way.
    pub fn turned(&self) -> Roads {
        let turned = self.all().map(|(tail, head, road)| ((head, tail), road));
        Roads {
            between: turned.collect(),
        }
    }

    /// All arcs in force, as tail, head and road.
    pub fn all(&self) -> impl Iterator<Item = (u32, u32, Road)> + '_ {
        self.between.iter().map(|(&(u, v), &road)| (u, v, road))
    }
}

/// The sentence itself, for one arc.
pub fn in_force(tails: &[u32], heads: &[u32], costs: &[u32], arc: usize) -> bool {
    let later_listing = (arc + 1..tails.len())
        .any(|later| tails[later] == tails[arc] && heads[later] == heads[arc]);
    tails[arc] != heads[arc] && costs[arc] != CLOSED && !later_listing
}

#[cfg(test)]
mod tests {
    use super::*;

    #[test]
    fn a_later_listing_replaces_an_earlier_one() {
        let tails = [1, 0, 1, 1, 2, 0, 0];
        let heads = [0, 1, 0, 1, 0, 1, 2];
        let costs = [5, 7, 9, 1, CLOSED, CLOSED, 4];
        let roads = Roads::of(&tails, &heads, &costs);
        let told: Vec<u32> = roads.all().map(|(_, _, road)| road.arc).collect();
        let said: Vec<u32> = (0..7)
            .filter(|&arc| in_force(&tails, &heads, &costs, arc))
            .map(|arc| arc as u32)
            .collect();
        assert_eq!(said, [2, 6]);
        assert_eq!(told, [6, 2]);
        assert_eq!(roads.get(1, 0), Some(Road { arc: 2, cost: 9 }));
        assert_eq!(roads.get(0, 1), None);
    }
}
