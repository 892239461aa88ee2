//! What only the sweeps meet: distances round CLOSED, and their checks by turns.

use crate::judge::compare_all;
use crate::lists::{expected, stale, Call, Lists};
use crate::tally::Tally;
use crate::CLOSED;
use nets::order;
use slices::Way;

/// The costs of a path's five steps from the dairy on; and the first and the last step, if any, after which the dairy is
/// CLOSED or more away.
type Steps = ([u32; 5], Option<(u32, u32)>);

const STEPS: [Steps; 9] = [
    ([CLOSED - 2, 1, CLOSED, 0, 0], None),
    ([CLOSED - 2, 2, CLOSED, 0, 0], Some((2, 2))),
    ([CLOSED - 2, 3, CLOSED, 0, 0], Some((2, 2))),
    ([CLOSED - 1, 0, 0, 0, 0], None),
    ([CLOSED - 1, 0, 0, 1, CLOSED], Some((4, 4))),
    ([CLOSED, CLOSED - 1, CLOSED - 1, 0, 0], None),
    // over 2^33
    (
        [CLOSED - 1, CLOSED - 1, CLOSED - 1, CLOSED, 0],
        Some((2, 3)),
    ),
    ([1, 1, CLOSED - 1, CLOSED - 1, CLOSED - 1], Some((3, 5))),
    ([1 << 31, 1 << 31, 1 << 31, 1 << 31, 1 << 31], Some((2, 5))),
];

/// Paths of six junctions, whose positions go the other way than their numbers; the dairy is the lowest position or the
/// highest.
pub fn distances_round_closed(tally: &mut Tally) -> Result<(), String> {
    for (costs, too_far) in STEPS {
        for way in [Way::From, Way::To] {
            for climbs in [true, false] {
                let told = compare_all(Call::Sweep(way), &path(costs, way, climbs), tally)?.told;
                // after step k a climb is at junction 5 - k, a descent at k
                let place = too_far.map(|(nearest, farthest)| match climbs {
                    true => 5 - farthest,
                    false => nearest,
                });
                let expected = place.map_or((0, 0), |place| (16, u64::from(place)));
                if (told.number, told.place) != expected {
                    return Err(format!("the naive programs say {told:?}, not {expected:?}"));
                }
            }
        }
    }
    Ok(())
}

/// The path's lists. No step leads towards the dairy if the sweep goes from it, or away from it if the sweep goes to it.
fn path(mut costs: [u32; 5], way: Way, climbs: bool) -> Lists {
    if !climbs {
        costs.reverse();
    }
    let shut = vec![CLOSED; 5];
    let (up, down) = match (way, climbs) {
        (Way::From, true) | (Way::To, false) => (costs.to_vec(), shut),
        (Way::From, false) | (Way::To, true) => (shut, costs.to_vec()),
    };
    let dairy = if climbs { 5 } else { 0 };
    Lists {
        order: order::reversed(6),
        rank: order::reversed(6),
        first: vec![0, 1, 2, 3, 4, 5, 5],
        row_heads: vec![1, 2, 3, 4, 5],
        up,
        down,
        distances: stale(6),
        from: dairy,
        to: dairy,
        ..Lists::default()
    }
}

/// Each of the sweeps' checks fails alone, and each two together: "1, 4, 7, 10, 11, then 15 .., then 16".
pub fn checks_by_turns(tally: &mut Tally) -> Result<(), String> {
    type Spoil = fn(&mut Lists);
    let spoils: [(u32, Spoil); 7] = [
        (1, |lists| lists.order.resize(4_097, 0)),
        (4, |lists| lists.order[2] = 3),
        (7, |lists| lists.first[0] = 1),
        (10, |lists| lists.down.truncate(4)),
        (11, |lists| (lists.from, lists.to) = (4, 4)),
        (15, |lists| lists.distances.push(7)),
        (16, |lists| lists.up[4] = CLOSED - 1),
    ];
    let good = n4();
    for way in [Way::From, Way::To] {
        for (earlier, (number, spoil)) in spoils.iter().enumerate() {
            for (_, other) in &spoils[earlier..] {
                // the check that comes first is spoilt last: nothing may hide it
                let mut lists = good.clone();
                other(&mut lists);
                spoil(&mut lists);
                let told = compare_all(Call::Sweep(way), &lists, tally)?.told;
                if told.number != *number {
                    return Err(format!("the naive programs say {told:?}, not {number}"));
                }
            }
        }
    }
    Ok(())
}

/// N4 with its order turned, as the naive programs leave it: from 3 the way leads over the edge at place 4, to 0 too.
fn n4() -> Lists {
    let mut lists = Lists {
        tails: vec![1, 0, 2, 3, 1],
        heads: vec![0, 2, 3, 1, 3],
        costs: vec![3, 4, 2, 6, 20],
        order: order::reversed(4),
        rank: stale(4),
        first: stale(5),
        row_heads: stale(5),
        up: stale(5),
        down: stale(5),
        distances: stale(4),
        from: 3,
        to: 0,
        ..Lists::default()
    };
    for call in [Call::Build, Call::Customise] {
        lists = expected(call, &lists).left;
    }
    lists
}
