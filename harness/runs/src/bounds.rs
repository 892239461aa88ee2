//! The greatest sizes, and what lies just past them.

mod changes;
mod sweeps;

use crate::judge::{compare_all, judge};
use crate::lists::{compare, stale, Call, Lists, Outcome, CALLS};
use crate::subject::SUBJECTS;
use crate::tally::Tally;
use crate::{Told, CLOSED};
use cases::{Case, Change, Damage};
use nets::{order, Net};
use slices::Way;
use std::cmp::Ordering;

/// The most junctions of a net.
const MOST: usize = 4_096;

type Run = fn(&mut Tally) -> Result<(), String>;

/// All of them, by name.
pub const ALL: [(&str, Run); 13] = [
    ("too many junctions or arcs", past_the_limits),
    ("16,384 arcs", most_arcs),
    ("the dearest path", dearest_path),
    ("the deepest shortcut", deepest_shortcut),
    ("faults in the last places", last_faults),
    ("the changes' checks by turns", changes::checks_by_turns),
    ("a change that every row feels", changes::felt_by_every_row),
    ("changes on over 65,536 edges", changes::over_65_536_edges),
    ("a long chain of changes", changes::long_chain),
    ("all junctions joined", all_joined),
    ("a route of a thousand million arcs", endless_route),
    ("distances round CLOSED", sweeps::distances_round_closed),
    ("the sweeps' checks by turns", sweeps::checks_by_turns),
];

fn net_of(n: usize, arcs: impl Iterator<Item = (u32, u32, u32)>) -> Net {
    let mut net = Net {
        n,
        ..Net::default()
    };
    arcs.for_each(|(tail, head, cost)| net.arc(tail, head, cost));
    net
}

/// 1 and 2, and which of them comes first.
fn past_the_limits(tally: &mut Tally) -> Result<(), String> {
    for (n, arcs) in [
        (MOST + 1, 0),
        (0, 0),
        (0, 16_385),
        (MOST + 1, 16_385),
        (3, 16_385),
    ] {
        let lists = Lists {
            tails: vec![0; arcs],
            heads: vec![1; arcs],
            costs: vec![1; arcs],
            order: order::by_number(n),
            rank: order::by_number(n),
            first: vec![0; n + 1],
            row_heads: stale(3),
            up: stale(3),
            down: stale(3),
            route: stale(3),
            distances: stale(n),
            cost: 1,
            ..Lists::default()
        };
        for call in CALLS {
            compare_all(call, &lists, tally)?;
        }
    }
    Ok(())
}

/// The most arcs on the most junctions: each road of a path four times over, and some arcs with equal ends.
fn most_arcs(tally: &mut Tally) -> Result<(), String> {
    let last = MOST as u32 - 1;
    let arcs = (0..16_384).map(|arc: u32| {
        let at = arc % MOST as u32;
        let cost = 1 + (arc * 7) % 11;
        match arc / MOST as u32 {
            0 | 2 => (at, (at + 1).min(last), cost),
            _ => ((at + 1).min(last), at, cost),
        }
    });
    let net = net_of(MOST, arcs);
    let mut case = Case::on(&net, order::by_number(MOST));
    case.later[5] = CLOSED;
    // the last arc, one that is hidden, and one in force that lies lowest
    let changes = [(16_383, CLOSED), (0, 500_000), (8_192, CLOSED), (8_192, 3)];
    case.changes = changes.map(|(arc, cost)| Change { arc, cost }).to_vec();
    tally.add(&judge(&case)?);
    Ok(())
}

/// "Customised costs that aren't CLOSED are at most 4,095 × 500,000": a path of the most junctions, each road at the
/// greatest cost.
fn dearest_path(tally: &mut Tally) -> Result<(), String> {
    let net = net_of(MOST, (0..MOST as u32 - 1).map(|at| (at, at + 1, 500_000)));
    let mut case = Case::on(&net, order::by_number(MOST));
    case.spare[3] = 0;
    tally.add(&judge(&case)?);
    // from one end to the other
    ends_of_path(&case, tally)
}

/// The same path with both ends last in the order: one shortcut spans it, and is opened some 4,000 deep.
fn deepest_shortcut(tally: &mut Tally) -> Result<(), String> {
    let last = MOST as u32 - 1;
    let net = net_of(MOST, (0..last).map(|at| (at, at + 1, 500_000)));
    let mut order: Vec<u32> = (1..last).collect();
    order.extend([0, last]);
    ends_of_path(&Case::on(&net, order), tally)
}

/// From junction 0 to the last, through the calls one after the other.
fn ends_of_path(case: &Case, tally: &mut Tally) -> Result<(), String> {
    let edges = case.graph().edges();
    let mut lists = Lists {
        tails: case.tails.clone(),
        heads: case.heads.clone(),
        costs: case.costs.clone(),
        order: case.order.clone(),
        rank: stale(MOST),
        first: stale(MOST + 1),
        row_heads: stale(edges),
        up: stale(edges),
        down: stale(edges),
        route: stale(MOST - 1),
        distances: stale(MOST),
        from: 0,
        to: MOST as u32 - 1,
        arc: 1,
        cost: 499_999,
    };
    for call in CALLS {
        lists = compare_all(call, &lists, tally)?.left;
    }
    lists.route = stale(MOST - 2);
    compare_all(Call::Route, &lists, tally)?;
    let told = compare_all(Call::Distance, &lists, tally)?.told;
    // the last sweep lists the distances to the last junction, before one arc got cheaper
    match (told.distance, lists.distances[0]) {
        (2_047_499_999, 2_047_500_000) => Ok(()),
        other => Err(format!("the naive programs say {other:?}")),
    }
}

/// A path of the most junctions, as build would leave it; every edge costs 1 either way.
fn longest_path() -> Lists {
    let last = MOST as u32 - 1;
    Lists {
        tails: (0..last).collect(),
        heads: (1..=last).collect(),
        costs: vec![500_000; MOST - 1],
        order: order::by_number(MOST),
        rank: order::by_number(MOST),
        first: (0..last).chain([last, last]).collect(),
        row_heads: (1..=last).collect(),
        up: vec![1; MOST - 1],
        down: vec![1; MOST - 1],
        route: stale(3),
        distances: stale(MOST),
        cost: 1,
        ..Lists::default()
    }
}

/// Good lists of the greatest size with one fault, as far back as it can stand.
fn last_faults(tally: &mut Tally) -> Result<(), String> {
    let good = longest_path();
    type Spoil = fn(&mut Lists);
    let [sweep_from, sweep_to] = [Way::From, Way::To].map(Call::Sweep);
    let faults: [(Call, u32, Spoil); 25] = [
        (Call::Build, 3, |lists| lists.heads[MOST - 2] = MOST as u32),
        (Call::Build, 4, |lists| lists.order[MOST - 1] = 0),
        (Call::Build, 4, |lists| lists.order[MOST - 1] = MOST as u32),
        (Call::Build, 5, |lists| lists.rank.push(0)),
        (Call::Build, 5, |lists| lists.first.truncate(MOST)),
        (Call::Customise, 2, |lists| lists.costs.truncate(MOST - 2)),
        (Call::Customise, 7, |lists| lists.rank[MOST - 1] -= 1),
        (Call::Customise, 7, |lists| lists.first[MOST] += 1),
        (Call::Customise, 7, |lists| lists.first[MOST] = 0),
        (Call::Customise, 8, |lists| lists.heads[MOST - 2] = 0),
        (Call::Customise, 9, |lists| lists.costs[MOST - 2] = 500_001),
        (Call::Customise, 10, |lists| lists.down.truncate(MOST - 2)),
        (Call::Distance, 7, |lists| lists.row_heads[MOST - 2] += 1),
        (Call::Distance, 11, |lists| lists.to = MOST as u32),
        (Call::Route, 11, |lists| lists.from = CLOSED),
        (sweep_from, 11, |lists| lists.from = MOST as u32),
        (sweep_to, 11, |lists| lists.to = MOST as u32),
        (sweep_from, 15, |lists| lists.distances.truncate(MOST - 1)),
        (sweep_to, 15, |lists| lists.distances.push(0)),
        (sweep_from, 16, |lists| lists.up[MOST - 2] = CLOSED - 1),
        (sweep_to, 16, |lists| lists.down[MOST - 2] = CLOSED - 1),
        (Call::Change, 9, |lists| lists.costs[MOST - 2] = 0),
        (Call::Change, 10, |lists| lists.up.truncate(MOST - 2)),
        (Call::Change, 17, |lists| lists.arc = MOST as u32 - 1),
        (Call::Change, 9, |lists| {
            (lists.arc, lists.cost) = (MOST as u32 - 2, CLOSED - 1)
        }),
    ];
    for (call, number, spoil) in faults {
        let mut lists = good.clone();
        spoil(&mut lists);
        let told = compare_all(call, &lists, tally)?.told;
        if told.number != number {
            return Err(format!("the naive programs say {told:?}, not {number}"));
        }
    }
    Ok(())
}

/// A star of the most junctions with its centre first: every two are joined, 8,386,560 edges.
fn all_joined(tally: &mut Tally) -> Result<(), String> {
    let edges = MOST * (MOST - 1) / 2;
    let lists = Lists {
        tails: vec![0; MOST - 1],
        heads: (1..MOST as u32).collect(),
        costs: vec![1; MOST - 1],
        order: order::by_number(MOST),
        rank: stale(MOST),
        first: stale(MOST + 1),
        row_heads: stale(edges),
        ..Lists::default()
    };
    // what it has to be can be written down at once
    let mut first = vec![0];
    for p in 0..MOST {
        first.push(first[p] + (MOST - 1 - p) as u32);
    }
    let mut built = Outcome {
        told: Told {
            edges: edges as u64,
            ..Told::default()
        },
        left: Lists {
            rank: order::by_number(MOST),
            first,
            row_heads: (0..MOST).flat_map(|p| p as u32 + 1..MOST as u32).collect(),
            ..lists.clone()
        },
    };
    hold(Call::Build, &lists, &built, tally)?;
    let short = Lists {
        row_heads: stale(edges - 1),
        ..lists.clone()
    };
    let refused = Outcome {
        told: Told {
            number: 6,
            ..Told::default()
        },
        left: Lists {
            rank: vec![0; MOST],
            first: vec![0; MOST + 1],
            row_heads: vec![0; edges - 1],
            ..short.clone()
        },
    };
    hold(Call::Build, &short, &refused, tally)?;

    // every edge costs 1 upward: the arc from the centre fits
    built.left.up = vec![1; edges];
    built.left.down = vec![CLOSED; edges];
    built.left.route = stale(2);
    built.left.to = 4_000;
    let lists = built.left.clone();
    let mut answer = Outcome {
        told: Told {
            distance: 1,
            ..Told::default()
        },
        left: lists.clone(),
    };
    hold(Call::Distance, &lists, &answer, tally)?;
    answer.told.arcs = 1;
    answer.left.route = vec![3_999, CLOSED];
    hold(Call::Route, &lists, &answer, tally)?;
    all_joined_changed(lists.clone(), tally)?;
    all_joined_swept(lists, tally)
}

/// One more arc, from 4,000 to 4,001, changes: the edge between them gets its cost, and each edge from 4,001 up gets
/// CLOSED, as no edge leads down and no arc lies there. The edge from x to any y has x lower triangles.
fn all_joined_changed(mut lists: Lists, tally: &mut Tally) -> Result<(), String> {
    lists.tails.push(4_000);
    lists.heads.push(4_001);
    lists.costs.push(7);
    (lists.arc, lists.cost) = (MOST as u32 - 1, 5);
    let mut left = lists.clone();
    left.costs[MOST - 1] = 5;
    left.up[left.first[4_000] as usize] = 5;
    left.up[left.first[4_001] as usize..].fill(CLOSED);
    let above = (4_001..MOST).map(|x| (MOST - 1 - x) * x);
    let told = Told {
        triangles: (4_000 + above.sum::<usize>()) as u64,
        ..Told::default()
    };
    hold(Call::Change, &lists, &Outcome { told, left }, tally)
}

/// The sweeps over the same graph: each position leads to every higher one, at 1, and to no lower one.
fn all_joined_swept(mut lists: Lists, tally: &mut Tally) -> Result<(), String> {
    lists.distances = stale(MOST);
    lists.from = 4_000;
    let upward = |lower: u32, higher: u32| match lower.cmp(&higher) {
        Ordering::Less => 1,
        Ordering::Equal => 0,
        Ordering::Greater => CLOSED,
    };
    for way in [Way::From, Way::To] {
        let junctions = 0..MOST as u32;
        let mut left = lists.clone();
        left.distances = match way {
            Way::From => junctions.map(|farm| upward(4_000, farm)).collect(),
            Way::To => junctions.map(|farm| upward(farm, 4_000)).collect(),
        };
        let told = Told::default();
        hold(Call::Sweep(way), &lists, &Outcome { told, left }, tally)?;
    }
    Ok(())
}

fn hold(call: Call, lists: &Lists, outcome: &Outcome, tally: &mut Tally) -> Result<(), String> {
    for subject in SUBJECTS {
        compare(subject, call, lists, outcome)?;
        tally.call(outcome.told);
    }
    Ok(())
}

/// Damaged costs under which each shortcut opens into two of half its cost: the route has 2^30 arcs, so its room ends
/// first, and the call must not go on after that.
fn endless_route(tally: &mut Tally) -> Result<(), String> {
    let n: usize = 32;
    let arcs = (1..n as u32).flat_map(|at| [(0, at, 1), (at, 0, 1)]);
    let mut case = Case::on(&net_of(n, arcs), order::by_number(n));
    let graph = case.graph();
    for x in 0..n {
        for y in graph.row(x) {
            let place = graph.place(x, y as usize).expect("an edge");
            for upward in [true, false] {
                case.damage.push(Damage {
                    upward,
                    place,
                    cost: 1 << x,
                });
            }
        }
    }
    for seed in 0..20 {
        case.seed = seed;
        tally.add(&judge(&case)?);
    }
    Ok(())
}
