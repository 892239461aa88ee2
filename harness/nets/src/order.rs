//! Orders of the junctions.

use crate::source::Source;

/// 0, 1, 2 and so on.
pub fn by_number(n: usize) -> Vec<u32> {
    (0..n as u32).collect()
}

/// The last junction first.
pub fn reversed(n: usize) -> Vec<u32> {
    (0..n as u32).rev().collect()
}

/// Any order.
pub fn shuffled(n: usize, source: &mut Source) -> Vec<u32> {
    let mut order = by_number(n);
    source.shuffle(&mut order);
    order
}

/// Junctions by how many arcs they have, the fewest or the most first.
pub fn by_arcs(n: usize, tails: &[u32], heads: &[u32], most_first: bool) -> Vec<u32> {
    let mut arcs = vec![0; n];
    for &end in tails.iter().chain(heads) {
        arcs[end as usize] += 1;
    }
    let mut order = by_number(n);
    order.sort_by_key(|&junction| {
        let arcs: i64 = arcs[junction as usize];
        if most_first {
            -arcs
        } else {
            arcs
        }
    });
    order
}

/// Dissection by coordinates. A set of at most two junctions goes by number. A larger one is sorted by east or north,
/// whichever spreads wider (east if equal), ties by number; the lower half, rounded down, is left. Left junctions with an
/// arc either way to the right half are the separator. The left remainder comes first, then the right half, each by the
/// same rule, then the separator by number.
pub fn dissection(east: &[i32], north: &[i32], tails: &[u32], heads: &[u32]) -> Vec<u32> {
    let n = east.len();
    let mut neighbours = vec![Vec::new(); n];
    for (&tail, &head) in tails.iter().zip(heads) {
        neighbours[tail as usize].push(head);
        neighbours[head as usize].push(tail);
    }
    let mut order = Vec::with_capacity(n);
    let map = Map {
        east,
        north,
        neighbours: &neighbours,
    };
    map.dissect(by_number(n), &mut order);
    order
}

struct Map<'a> {
    east: &'a [i32],
    north: &'a [i32],
    neighbours: &'a [Vec<u32>],
}

impl Map<'_> {
    fn dissect(&self, mut set: Vec<u32>, order: &mut Vec<u32>) {
        set.sort_unstable();
        if set.len() <= 2 {
            order.extend(set);
            return;
        }
        let along = if spread(self.east, &set) >= spread(self.north, &set) {
            self.east
        } else {
            self.north
        };
        set.sort_by_key(|&junction| along[junction as usize]);
        let mut left = set;
        let right = left.split_off(left.len() / 2);
        let at_border = |&junction: &u32| {
            let near = &self.neighbours[junction as usize];
            near.iter().any(|other| right.contains(other))
        };
        let mut separator: Vec<u32> = left.iter().copied().filter(at_border).collect();
        left.retain(|junction| !separator.contains(junction));
        separator.sort_unstable();
        self.dissect(left, order);
        self.dissect(right, order);
        order.extend(separator);
    }
}

fn spread(along: &[i32], set: &[u32]) -> i32 {
    let places = set.iter().map(|&junction| along[junction as usize]);
    let (least, greatest) = (places.clone().min(), places.max());
    greatest.unwrap_or(0) - least.unwrap_or(0)
}

#[cfg(test)]
mod tests {
    use super::*;

    #[test]
    fn a_row_of_five_is_cut_in_its_left_half() {
        // 0 - 1 - 2 - 3 - 4 from west to east: left is {0, 1}, and 1 is the separator
        let east = [0, 10, 20, 30, 40];
        let order = dissection(&east, &[0; 5], &[0, 1, 2, 3], &[1, 2, 3, 4]);
        assert_eq!(order, [0, 3, 4, 2, 1]);
    }
}
