//! Least walks along open roads by Dijkstra and by Floyd-Warshall. They know junctions and arcs only.

use crate::roads::Roads;
use crate::{CLOSED, NO_WALK};
use std::cmp::Reverse;
use std::collections::BinaryHeap;

/// The open roads by tail, ready for Dijkstra.
pub struct Leaving {
    first: Vec<usize>,
    heads: Vec<u32>,
    costs: Vec<u32>,
}

impl Leaving {
    /// The roads of a net of n junctions.
    pub fn of(n: usize, roads: &Roads) -> Leaving {
        let mut leaving = Leaving {
            first: vec![0],
            heads: Vec::new(),
            costs: Vec::new(),
        };
        // the roads come sorted by tail
        for (tail, head, road) in roads.all() {
            while leaving.first.len() <= tail as usize {
                leaving.first.push(leaving.heads.len());
            }
            leaving.heads.push(head);
            leaving.costs.push(road.cost);
        }
        leaving.first.resize(n + 1, leaving.heads.len());
        leaving
    }

    /// The number of junctions.
    pub fn size(&self) -> usize {
        self.first.len() - 1
    }
}

/// Dijkstra's lists, kept from one question to the next.
pub struct Dijkstra {
    distance: Vec<u64>,
    waiting: BinaryHeap<Reverse<(u64, u32)>>,
}

impl Dijkstra {
    /// Lists for n junctions.
    pub fn new(n: usize) -> Dijkstra {
        Dijkstra {
            distance: vec![NO_WALK; n],
            waiting: BinaryHeap::new(),
        }
    }

    /// The distance from one junction to another; it stops as soon as that is known.
    pub fn distance(&mut self, net: &Leaving, from: u32, to: u32) -> Option<u64> {
        self.search(net, from, Some(to));
        let found = self.distance[to as usize];
        (found != NO_WALK).then_some(found)
    }

    /// The distances from one junction to all, with the number for "none".
    pub fn distances(&mut self, net: &Leaving, from: u32) -> &[u64] {
        self.search(net, from, None);
        &self.distance
    }

    fn search(&mut self, net: &Leaving, from: u32, to: Option<u32>) {
        self.distance.fill(NO_WALK);
        self.waiting.clear();
        self.distance[from as usize] = 0;
        self.waiting.push(Reverse((0, from)));
        while let Some(Reverse((so_far, junction))) = self.waiting.pop() {
            if Some(junction) == to {
                return;
            }
            if so_far > self.distance[junction as usize] {
                continue;
            }
            let leaving = net.first[junction as usize]..net.first[junction as usize + 1];
            for road in leaving {
                let sum = so_far + u64::from(net.costs[road]);
                let head = net.heads[road];
                if sum < self.distance[head as usize] {
                    self.distance[head as usize] = sum;
                    self.waiting.push(Reverse((sum, head)));
                }
            }
        }
    }
}

/// The distances between all junctions of a small net, row by row: from u to v at u × n + v.
pub fn floyd_warshall(n: usize, tails: &[u32], heads: &[u32], costs: &[u32]) -> Vec<Option<u64>> {
    let mut far: Vec<Option<u64>> = vec![None; n * n];
    for arc in 0..tails.len() {
        let pair = tails[arc] as usize * n + heads[arc] as usize;
        far[pair] = (costs[arc] != CLOSED).then_some(u64::from(costs[arc]));
    }
    for junction in 0..n {
        far[junction * n + junction] = Some(0);
    }
    for over in 0..n {
        for from in 0..n {
            let Some(start) = far[from * n + over] else {
                continue;
            };
            for to in 0..n {
                if let Some(end) = far[over * n + to] {
                    let sum = start + end;
                    if far[from * n + to].is_none_or(|known| sum < known) {
                        far[from * n + to] = Some(sum);
                    }
                }
            }
        }
    }
    far
}

#[cfg(test)]
mod tests {
    use super::*;

    #[test]
    fn both_find_the_distances_of_n4() {
        let tails = [1, 0, 2, 3, 1];
        let heads = [0, 2, 3, 1, 3];
        let costs = [3, 4, 2, 6, 20];
        let far = floyd_warshall(4, &tails, &heads, &costs);
        assert_eq!(far[4 + 3], Some(9));
        assert_eq!(far[1], Some(12));
        assert_eq!(far[2 * 4], Some(11));
        let roads = Roads::of(&tails, &heads, &costs);
        let [net, turned] = [&roads, &roads.turned()].map(|roads| Leaving::of(4, roads));
        let mut dijkstra = Dijkstra::new(4);
        for a in 0..4 {
            for b in 0..4 {
                let there = far[a as usize * 4 + b as usize];
                assert_eq!(dijkstra.distance(&net, a, b), there);
                let there = there.unwrap_or(NO_WALK);
                assert_eq!(dijkstra.distances(&net, a)[b as usize], there);
                assert_eq!(dijkstra.distances(&turned, b)[a as usize], there);
            }
        }
    }

    #[test]
    fn a_later_closed_listing_hides_an_earlier_open_one() {
        let far = floyd_warshall(2, &[0, 0], &[1, 1], &[5, CLOSED]);
        assert_eq!(far, [Some(0), None, None, Some(0)]);
        let net = Leaving::of(2, &Roads::of(&[0, 0], &[1, 1], &[5, CLOSED]));
        assert_eq!(net.size(), 2);
        assert_eq!(Dijkstra::new(2).distance(&net, 0, 1), None);
    }
}
