//! The sweeps with one fault planted: 47 to 69, and those of the older faults that touch every call.

use super::sloppy::all_but_parents;
use super::{fault, told, NO};
use crate::{sound, Swept};
use plain::CLOSED;
use slices::{Told, Way};

pub fn sweep(mut swept: Swept, distances: &mut [u32]) -> Told {
    let n = swept.graph.order.len();
    match fault() {
        1 => return NO,
        47 => {
            swept.way = match swept.way {
                Way::From => Way::To,
                Way::To => Way::From,
            };
        }
        68 if n == 4_096 => return NO,
        69 => {
            // SAFETY: none; the guard behind the list is there to be written
            unsafe { *distances.as_mut_ptr().add(distances.len()) = 0 };
        }
        60 if distances.len() != n && sound::sweep(swept, distances).number == 11 => {
            return Told { number: 15, ..NO };
        }
        _ => {}
    }
    let old = distances.to_vec();
    let lent = match fault() {
        57 if distances.len() > n => &mut distances[..n],
        _ => &mut *distances,
    };
    let reply = sound::sweep(swept, lent);
    told(match reply.number {
        0 => accept_wrongly(swept, distances, &old),
        7 if fault() == 67 => refuse_hierarchy_wrongly(swept, distances, reply),
        15 => refuse_length_wrongly(swept, distances, reply),
        16 => refuse_distance_wrongly(swept, distances, &old, reply),
        _ => reply,
    })
}

/// What is left of a sweep that fills its list soundly.
fn accept_wrongly(swept: Swept, distances: &mut [u32], old: &[u32]) -> Told {
    let sound = distances.to_vec();
    let graph = swept.graph;
    match fault() {
        5 | 55 => distances.copy_from_slice(old),
        48 => distances
            .iter_mut()
            .filter(|tenths| **tenths == CLOSED)
            .for_each(|tenths| *tenths = 0),
        54 => {
            let chain = chain(swept);
            for (place, &position) in distances.iter_mut().zip(graph.rank) {
                if !chain.contains(&(position as usize)) {
                    *place = CLOSED;
                }
            }
        }
        56 => {
            for (place, &junction) in distances.iter_mut().zip(graph.order) {
                *place = sound[junction as usize];
            }
        }
        61 | 64..=66 => return list(&sloppily(swept), swept, distances),
        _ => {}
    }
    Told::default()
}

/// What is left of 7, where a row may hold what its parent's doesn't.
fn refuse_hierarchy_wrongly(swept: Swept, distances: &mut [u32], reply: Told) -> Told {
    let passes = all_but_parents(swept.graph, swept.costs, swept.end, swept.end);
    match passes && distances.len() == swept.graph.order.len() {
        true => list(&sloppily(swept), swept, distances),
        false => reply,
    }
}

/// What is left of 15.
fn refuse_length_wrongly(swept: Swept, distances: &mut [u32], reply: Told) -> Told {
    let n = swept.graph.order.len();
    match fault() {
        53 => distances.fill(CLOSED),
        58 if distances.len() < n => {
            let mut whole = vec![0; n];
            let reply = sound::sweep(swept, &mut whole);
            distances.copy_from_slice(&whole[..distances.len()]);
            return reply;
        }
        59 => {
            let early = sound::sweep(swept, &mut vec![0; n]);
            if early.number == 16 {
                return early;
            }
        }
        _ => {}
    }
    reply
}

/// What is left of 16.
fn refuse_distance_wrongly(
    swept: Swept,
    distances: &mut [u32],
    old: &[u32],
    mut reply: Told,
) -> Told {
    match fault() {
        5 | 51 => distances.copy_from_slice(old),
        49 => reply.place = u64::from(swept.graph.rank[reply.place as usize]),
        50 | 52 | 61..=66 => {
            return list(&sloppily(swept), swept, distances);
        }
        _ => {}
    }
    reply
}

/// Writes the distances of positions into the list, up to one that is too far.
fn list(far: &[Option<u64>], swept: Swept, distances: &mut [u32]) -> Told {
    let mut refused = None;
    for (junction, place) in distances.iter_mut().enumerate() {
        let far = far[swept.graph.rank[junction] as usize];
        let is_too_far = match fault() {
            61 => far.is_none_or(|far| far >= u64::from(CLOSED)),
            63 => far.is_some_and(|far| far > u64::from(CLOSED)),
            _ => far.is_some_and(|far| far >= u64::from(CLOSED)),
        };
        if is_too_far && (refused.is_none() || fault() == 50) {
            refused = Some(junction as u64);
        }
        *place = far.map_or(CLOSED, |far| far as u32);
    }
    match refused {
        Some(place) => {
            if fault() != 52 {
                distances.fill(CLOSED);
            }
            Told {
                number: 16,
                place,
                ..NO
            }
        }
        None => Told::default(),
    }
}

/// The places of a position's row, with their heads.
fn row<'a>(swept: Swept<'a>, p: usize) -> impl Iterator<Item = (usize, usize)> + 'a {
    let first = swept.graph.first;
    let places = first[p] as usize..first[p + 1] as usize;
    places.map(move |place| (place, swept.graph.row_heads[place] as usize))
}

fn chain(swept: Swept) -> Vec<usize> {
    let mut chain = vec![swept.graph.rank[swept.end as usize] as usize];
    while let Some((_, parent)) = row(swept, chain[chain.len() - 1]).next() {
        chain.push(parent);
    }
    chain
}

/// The distance of each position. Fault 62: CLOSED or more is none; fault 64: the costs of the way down serve twice;
/// fault 65: CLOSED is a number on the way down; fault 66: the lowest position goes first.
fn sloppily(swept: Swept) -> Vec<Option<u64>> {
    let n = swept.graph.order.len();
    let (mut climb, descent) = match swept.way {
        Way::From => (swept.costs.up, swept.costs.down),
        Way::To => (swept.costs.down, swept.costs.up),
    };
    if fault() == 64 {
        climb = descent;
    }
    let sum = |far: Option<u64>, cost: u32, closed_counts: bool| {
        let far = (cost != CLOSED || closed_counts).then_some(far? + u64::from(cost));
        far.filter(|&far| fault() != 62 || far < u64::from(CLOSED))
    };
    let mut far = vec![None; n];
    far[swept.graph.rank[swept.end as usize] as usize] = Some(0);
    for p in 0..n {
        for (place, q) in row(swept, p) {
            far[q] = least(far[q], sum(far[p], climb[place], false));
        }
    }
    for turn in 0..n {
        let p = if fault() == 66 { turn } else { n - 1 - turn };
        for (place, q) in row(swept, p) {
            far[p] = least(far[p], sum(far[q], descent[place], fault() == 65));
        }
    }
    far
}

fn least(a: Option<u64>, b: Option<u64>) -> Option<u64> {
    match (a, b) {
        (Some(a), Some(b)) => Some(a.min(b)),
        (a, b) => a.or(b),
    }
}
