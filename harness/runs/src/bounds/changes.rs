//! What only a change meets: its checks by turns, changes that go up a long way, very many edges, very many changes.

use super::{net_of, MOST};
use crate::changes::make_up;
use crate::judge::{compare_all, judge};
use crate::lists::{expected, stale, Call, Lists};
use crate::tally::Tally;
use crate::CLOSED;
use cases::{Case, Change};
use nets::county::{county, USUAL};
use nets::source::Source;
use nets::{order, Net};

/// Each check of a change fails alone, and each two together: "customise's on the lists as they stand, then 17 .., then 9
/// for the new cost".
pub fn checks_by_turns(tally: &mut Tally) -> Result<(), String> {
    type Spoil = fn(&mut Lists);
    let spoils: [((u32, u64), Spoil); 10] = [
        ((1, 0), |lists| lists.order.resize(4_097, 0)),
        ((2, 0), |lists| lists.costs.push(1)),
        ((3, 1), |lists| lists.heads[1] = 4),
        ((4, 2), |lists| lists.order[2] = 1),
        ((7, 0), |lists| lists.first[0] = 1),
        ((8, 0), |lists| (lists.tails[0], lists.heads[0]) = (3, 0)),
        ((9, 3), |lists| lists.costs[3] = 500_001),
        ((10, 0), |lists| lists.up.truncate(4)),
        ((17, 0), |lists| lists.arc = 5),
        ((9, 4), |lists| lists.cost = 0),
    ];
    let good = n4();
    for (earlier, (told, spoil)) in spoils.iter().enumerate() {
        for (_, other) in &spoils[earlier..] {
            // the check that comes first is spoilt last: nothing may hide it
            let mut lists = good.clone();
            other(&mut lists);
            spoil(&mut lists);
            let outcome = compare_all(Call::Change, &lists, tally)?;
            if (outcome.told.number, outcome.told.place) != *told || outcome.left != lists {
                return Err(format!("the naive program says {:?}", outcome.told));
            }
        }
    }
    every_number(&good, tally)
}

/// Arc numbers and costs round the limits, on good lists and with the cost of the very arc at fault.
fn every_number(good: &Lists, tally: &mut Tally) -> Result<(), String> {
    let words = [0, 1, 4, 5, 6, 499_999, 500_000, 500_001, 1 << 31];
    for standing in [20, 0, 500_001, CLOSED - 1, CLOSED] {
        for arc in words.into_iter().chain([CLOSED]) {
            for cost in words.into_iter().chain([CLOSED - 1, CLOSED]) {
                let mut lists = good.clone();
                lists.costs[4] = standing;
                (lists.arc, lists.cost) = (arc, cost);
                compare_all(Call::Change, &lists, tally)?;
            }
        }
    }
    Ok(())
}

/// N4 as the naive programs leave it, with a place to spare.
fn n4() -> Lists {
    let mut lists = Lists {
        tails: vec![1, 0, 2, 3, 1],
        heads: vec![0, 2, 3, 1, 3],
        costs: vec![3, 4, 2, 6, 20],
        order: order::by_number(4),
        rank: stale(4),
        first: stale(5),
        row_heads: stale(5),
        up: stale(5),
        down: stale(6),
        arc: 4,
        cost: 7,
        ..Lists::default()
    };
    for call in [Call::Build, Call::Customise] {
        lists = expected(call, &lists).left;
    }
    lists
}

fn changes_to<const COUNT: usize>(changes: [(usize, u32); COUNT]) -> Vec<Change> {
    changes.map(|(arc, cost)| Change { arc, cost }).to_vec()
}

/// A path of the most junctions, both ways, whose first junction alone has arcs to the highest and back: every row has
/// the highest, so a change there, or anywhere low on the path, goes up to it.
pub fn felt_by_every_row(tally: &mut Tally) -> Result<(), String> {
    let last = MOST as u32 - 1;
    let path = (0..last).flat_map(|at| [(at, at + 1, 3 + at % 5), (at + 1, at, 2 + at % 7)]);
    let net = net_of(MOST, path.chain([(0, last, 7), (last, 0, 9)]));
    let mut case = Case::on(&net, order::by_number(MOST));
    let (there, back) = (net.tails.len() - 2, net.tails.len() - 1);
    case.changes = changes_to([
        (there, CLOSED),
        (back, 500_000),
        (there, 7),
        (1, CLOSED),
        (0, 1),
        (1, 2),
        (4_000, CLOSED),
    ]);
    tally.add(&judge(&case)?);
    Ok(())
}

/// A star with its centre first, so that every two are joined, and arcs anyhow: with 362 junctions there are 65,341 edges,
/// with 364 there are 66,066, more than a small room has flags for.
pub fn over_65_536_edges(tally: &mut Tally) -> Result<(), String> {
    for n in [362, 364] {
        let mut source = Source::new(n as u64);
        let any = |source: &mut Source| source.below(n) as u32;
        let mut net = net_of(n, (1..n as u32).map(|at| (0, at, 400 + at % 9)));
        (1..n as u32).for_each(|at| net.arc(at, 0, 400 + at % 7));
        for _ in 0..2 * n {
            let cost = source.between(1, 900) as u32;
            net.arc(any(&mut source), any(&mut source), cost);
        }
        // from here on the edges lie past the small room
        let high = |back: u32| n as u32 - back;
        net.arc(high(3), high(2), 50);
        let arc = net.tails.len() - 1;
        let mut case = Case::on(&net, order::by_number(n));
        case.changes = changes_to([(arc, 1), (4, CLOSED), (arc, CLOSED), (arc - 1, 1)]);
        tally.add(&judge(&case)?);
    }
    Ok(())
}

/// Hundreds of changes on one net, by a good order and by the worst ones; then on costs that nobody customised.
pub fn long_chain(tally: &mut Tally) -> Result<(), String> {
    for seed in 0..3 {
        let mut source = Source::new(seed);
        let mut net = county(48, USUAL, &mut source);
        // arcs with equal ends, and later listings
        (0..4).for_each(|at| net.arc(at, at, 7));
        (0..12).for_each(|arc| net.arc(net.tails[arc], net.heads[arc], 90));
        for order in orders(&net, &mut source) {
            let mut case = Case::on(&net, order);
            case.seed = source.any();
            case.change_some(120);
            tally.add(&judge(&case)?);
        }
    }
    made_up_again_and_again(tally)
}

fn orders(net: &Net, source: &mut Source) -> [Vec<u32>; 3] {
    [
        order::dissection(&net.east, &net.north, &net.tails, &net.heads),
        order::by_arcs(net.n, &net.tails, &net.heads, true),
        order::shuffled(net.n, source),
    ]
}

/// A change on made-up costs, again and again: every two of 14 junctions are joined.
fn made_up_again_and_again(tally: &mut Tally) -> Result<(), String> {
    let n = 14;
    let mut source = Source::new(14);
    let arcs = (1..n as u32).flat_map(|at| [(0, at, 3), (at, 0, 3), (at, at - 1, 2)]);
    let case = Case::on(&net_of(n, arcs), order::by_number(n));
    let mut lists = Lists {
        tails: case.tails.clone(),
        heads: case.heads.clone(),
        costs: case.costs.clone(),
        order: case.order.clone(),
        rank: stale(n),
        first: stale(n + 1),
        row_heads: stale(n * (n - 1) / 2),
        up: stale(n * (n - 1) / 2 + 1),
        down: stale(n * (n - 1) / 2 + 2),
        ..Lists::default()
    };
    lists = expected(Call::Build, &lists).left;
    for _ in 0..400 {
        make_up(&mut lists, &mut source);
        lists.arc = source.below(lists.tails.len()) as u32;
        lists.cost = source.pick(&[1, 2, 3, 7, 400_000, CLOSED]);
        compare_all(Call::Change, &lists, tally)?;
        tally.changed += 1;
    }
    Ok(())
}
