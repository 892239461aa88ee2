//! The examples of document 01, by the answers' names; and what requests a and b of document 02 make of them.

use crate::CLOSED;
use calls::{told, Built, Changed, Distance, Filled, Refusal, Route};
use slices::{Arcs, CostRoom, Costs, Graph, GraphRoom, RoadRoom, Roads, Way};
use std::mem::take;

/// A net with its graph and costs, as the calls left them.
struct Worked {
    tails: Vec<u32>,
    heads: Vec<u32>,
    costs: Vec<u32>,
    order: Vec<u32>,
    rank: Vec<u32>,
    first: Vec<u32>,
    row_heads: Vec<u32>,
    up: Vec<u32>,
    down: Vec<u32>,
}

impl Worked {
    fn new(arcs: &[(u32, u32, u32)], order: &[u32], heads_room: usize) -> (Worked, Built) {
        let mut worked = Worked {
            tails: arcs.iter().map(|arc| arc.0).collect(),
            heads: arcs.iter().map(|arc| arc.1).collect(),
            costs: arcs.iter().map(|arc| arc.2).collect(),
            order: order.to_vec(),
            rank: Vec::new(),
            first: Vec::new(),
            row_heads: Vec::new(),
            up: vec![77; heads_room],
            down: vec![77; heads_room],
        };
        let mut rank = vec![77; order.len()];
        let mut first = vec![77; order.len() + 1];
        let mut row_heads = vec![77; heads_room];
        let room = GraphRoom {
            rank: &mut rank,
            first: &mut first,
            row_heads: &mut row_heads,
        };
        let answer = Built::from(told::build(worked.roads().arcs, order, room));
        (worked.rank, worked.first, worked.row_heads) = (rank, first, row_heads);
        (worked, answer)
    }

    fn roads(&self) -> Roads<'_> {
        let arcs = Arcs {
            tails: &self.tails,
            heads: &self.heads,
        };
        let costs = &self.costs;
        Roads { arcs, costs }
    }

    fn graph(&self) -> Graph<'_> {
        Graph {
            order: &self.order,
            rank: &self.rank,
            first: &self.first,
            row_heads: &self.row_heads,
        }
    }

    fn held(&self) -> Costs<'_> {
        let (up, down) = (&self.up, &self.down);
        Costs { up, down }
    }

    fn customise(&mut self) -> Filled {
        let (mut up, mut down) = (take(&mut self.up), take(&mut self.down));
        let room = CostRoom {
            up: &mut up,
            down: &mut down,
        };
        let answer = Filled::from(told::customise(self.roads(), self.graph(), room));
        (self.up, self.down) = (up, down);
        answer
    }

    fn change(&mut self, arc: u32, cost: u32) -> Changed {
        let mut costs = take(&mut self.costs);
        let (mut up, mut down) = (take(&mut self.up), take(&mut self.down));
        let roads = RoadRoom {
            arcs: self.roads().arcs,
            costs: &mut costs,
        };
        let room = CostRoom {
            up: &mut up,
            down: &mut down,
        };
        let answer = Changed::from(told::change(roads, self.graph(), room, arc, cost));
        (self.costs, self.up, self.down) = (costs, up, down);
        answer
    }

    fn distance(&self, from: u32, to: u32) -> Distance {
        Distance::from(told::distance(self.graph(), self.held(), from, to))
    }

    fn sweep(&self, way: Way, end: u32, room: usize) -> (Filled, Vec<u32>) {
        let mut list = vec![77; room];
        let told = told::sweep(way, self.graph(), self.held(), end, &mut list);
        (Filled::from(told), list)
    }

    fn route(&self, from: u32, to: u32, room: usize) -> (Route, Vec<u32>) {
        let mut list = vec![77; room];
        let (roads, graph, held) = (self.roads(), self.graph(), self.held());
        let told = told::route(roads, graph, held, from, to, &mut list);
        (Route::from(told), list)
    }
}

const N4: [(u32, u32, u32); 5] = [(1, 0, 3), (0, 2, 4), (2, 3, 2), (3, 1, 6), (1, 3, 20)];

/// How many examples were run, and the names of those that don't hold.
pub fn run() -> (usize, Vec<String>) {
    let mut results: Vec<(&str, bool)> = Vec::new();
    let mut says = |name, holds| results.push((name, holds));
    build_and_costs(&mut says);
    distances_and_routes(&mut says);
    refusals(&mut says);
    sweeps(&mut says);
    sweep_refusals(&mut says);
    changes(&mut says);
    change_refusals(&mut says);
    let failed = results.iter().filter(|(_, holds)| !holds);
    let failed = failed.map(|(name, _)| name.to_string()).collect();
    (results.len(), failed)
}

fn build_and_costs(says: &mut impl FnMut(&'static str, bool)) {
    let (mut n4, built) = Worked::new(&N4, &[0, 1, 2, 3], 6);
    says("P1 E", built == Built::Edges(5));
    says("P1 rank", n4.rank == [0, 1, 2, 3]);
    says("P1 first", n4.first == [0, 2, 4, 5, 5]);
    says("P1 heads", n4.row_heads == [1, 2, 2, 3, 3, 0]);
    says("P2 done", n4.customise() == Filled::Done);
    says("P2 up", n4.up == [CLOSED, 4, 7, 20, 2, CLOSED]);
    says("P2 down", n4.down == [3, CLOSED, CLOSED, 6, 13, CLOSED]);

    let (turned, built) = Worked::new(&N4, &[3, 2, 1, 0], 5);
    says("P9 E", built == Built::Edges(5));
    says("P9 first", turned.first == [0, 2, 4, 5, 5]);
    says("P9 heads", turned.row_heads == [1, 2, 2, 3, 3]);
    let star = [(0, 1, 1), (0, 2, 1), (0, 3, 1)];
    says(
        "P10 centre first",
        Worked::new(&star, &[0, 1, 2, 3], 6).1 == Built::Edges(6),
    );
    says(
        "P10 centre last",
        Worked::new(&star, &[1, 2, 3, 0], 3).1 == Built::Edges(3),
    );

    let (lone, built) = Worked::new(&[], &[0], 0);
    says("n = 1: E", built == Built::Edges(0));
    says("n = 1: first", lone.first == [0, 0]);
}

fn distances_and_routes(says: &mut impl FnMut(&'static str, bool)) {
    let goes = |worked: &Worked, from, to, tenths, arcs: &[u32]| {
        let drive = Route::Drive {
            distance: tenths,
            arcs: arcs.len() as u64,
        };
        let mut list = arcs.to_vec();
        list.extend([CLOSED; 2]);
        worked.distance(from, to) == Distance::Tenths(tenths)
            && worked.route(from, to, arcs.len() + 2) == (drive, list)
            && worked.route(from, to, arcs.len()) == (drive, arcs.to_vec())
    };
    let nowhere = |worked: &Worked, from, to| {
        worked.distance(from, to) == Distance::NoWalk
            && worked.route(from, to, 2) == (Route::NoWalk, vec![CLOSED; 2])
            && worked.route(from, to, 0) == (Route::NoWalk, vec![])
    };
    let (mut n4, _) = Worked::new(&N4, &[0, 1, 2, 3], 5);
    n4.customise();
    says("P3", goes(&n4, 1, 3, 9, &[0, 1, 2]));
    says("P4", goes(&n4, 0, 1, 12, &[1, 2, 3]));
    says("P5", goes(&n4, 2, 0, 11, &[2, 3, 0]));
    says("P6", goes(&n4, 0, 0, 0, &[]));

    let mut shut = N4.to_vec();
    shut[2].2 = CLOSED;
    let (mut n4, _) = Worked::new(&shut, &[0, 1, 2, 3], 5);
    n4.customise();
    says("P7 none", nowhere(&n4, 0, 1));
    says("P7 arc 4", goes(&n4, 1, 3, 20, &[4]));
    n4.costs[2] = 2;
    n4.customise();
    says("a reopened road", goes(&n4, 0, 1, 12, &[1, 2, 3]));

    shut.push((1, 3, 30));
    let (mut n4, _) = Worked::new(&shut, &[0, 1, 2, 3], 5);
    n4.customise();
    says("P8", goes(&n4, 1, 3, 30, &[5]));

    let (mut n4, _) = Worked::new(&N4, &[3, 2, 1, 0], 5);
    n4.customise();
    says("P9 distance", goes(&n4, 1, 3, 9, &[0, 1, 2]));
}

fn refusals(says: &mut impl FnMut(&'static str, bool)) {
    let every: Vec<u32> = (0..4_097).collect();
    let refused = |refusal| Built::Refused(refusal);
    says(
        "n = 0",
        Worked::new(&[], &[], 0).1 == refused(Refusal::JunctionCount),
    );
    says(
        "n = 4,097",
        Worked::new(&[], &every, 0).1 == refused(Refusal::JunctionCount),
    );
    says(
        "n = 4,096",
        Worked::new(&[], &every[..4_096], 0).1 == Built::Edges(0),
    );
    let (short, built) = Worked::new(&N4, &[0, 1, 2, 3], 4);
    says("heads room 4", built == refused(Refusal::HeadsRoom));
    let all_0 = [&short.rank, &short.first, &short.row_heads];
    says(
        "after 6 all 0",
        all_0.iter().all(|list| list.iter().all(|&word| word == 0)),
    );

    let (mut n4, _) = Worked::new(&N4, &[0, 1, 2, 3], 5);
    for (name, cost, answer) in [
        ("cost 500,000", 500_000, Filled::Done),
        (
            "cost 500,001",
            500_001,
            Filled::Refused(Refusal::ArcCost(1)),
        ),
        ("cost 0", 0, Filled::Refused(Refusal::ArcCost(1))),
    ] {
        n4.costs[1] = cost;
        says(name, n4.customise() == answer);
    }

    let (mut n4, _) = Worked::new(&N4, &[0, 1, 2, 3], 5);
    n4.customise();
    let full = Route::Refused(Refusal::RouteRoom);
    let misfit = Route::Refused(Refusal::PieceFitsNothing);
    says("room 2", n4.route(1, 3, 2) == (full, vec![CLOSED; 2]));
    n4.costs[2] = 3;
    says(
        "arc 2 at 3, room 3",
        n4.route(1, 3, 3) == (misfit, vec![CLOSED; 3]),
    );
    says(
        "arc 2 at 3, room 2",
        n4.route(1, 3, 2) == (misfit, vec![CLOSED; 2]),
    );
    says(
        "arc 2 at 3, room 1",
        n4.route(1, 3, 1) == (full, vec![CLOSED; 1]),
    );
}

/// Whether every place of every sweep's list is what the distance call says.
fn lists_distances(worked: &Worked) -> bool {
    let n = worked.order.len();
    (0..n as u32).all(|dairy| {
        let [(from, to_all), (to, from_all)] =
            [Way::From, Way::To].map(|way| worked.sweep(way, dairy, n));
        let far = |from, to| match worked.distance(from, to) {
            Distance::Tenths(tenths) => Some(tenths),
            Distance::NoWalk => Some(u64::from(CLOSED)),
            Distance::Refused(_) => None,
        };
        from == Filled::Done
            && to == Filled::Done
            && (0..n as u32)
                .zip(to_all)
                .all(|(farm, tenths)| far(dairy, farm) == Some(tenths.into()))
            && (0..n as u32)
                .zip(from_all)
                .all(|(farm, tenths)| far(farm, dairy) == Some(tenths.into()))
    })
}

fn sweeps(says: &mut impl FnMut(&'static str, bool)) {
    let (mut n4, _) = Worked::new(&N4, &[0, 1, 2, 3], 5);
    n4.customise();
    let from_0 = (Filled::Done, vec![0, 12, 4, 6]);
    says("N4 from 0", n4.sweep(Way::From, 0, 4) == from_0);
    says("P3 from 1", n4.sweep(Way::From, 1, 4).1[3] == 9);
    says("P3 to 3", n4.sweep(Way::To, 3, 4).1[1] == 9);
    says("P4 to 1", n4.sweep(Way::To, 1, 4).1[0] == 12);
    says("P5 from 2", n4.sweep(Way::From, 2, 4).1[0] == 11);
    says("P5 to 0", n4.sweep(Way::To, 0, 4).1[2] == 11);
    says("N4: sweeps list distances", lists_distances(&n4));

    n4.costs[2] = CLOSED;
    n4.customise();
    says("P7 from 0", n4.sweep(Way::From, 0, 4).1[1] == CLOSED);
    says("P7 to 1", n4.sweep(Way::To, 1, 4).1[0] == CLOSED);
    says("P7 to 3", n4.sweep(Way::To, 3, 4).1[1] == 20);
    says("P7: sweeps list distances", lists_distances(&n4));

    let (mut n4, _) = Worked::new(&N4, &[3, 2, 1, 0], 5);
    n4.customise();
    says("P9 from 0", n4.sweep(Way::From, 0, 4) == from_0);
    says("P9: sweeps list distances", lists_distances(&n4));
    let (mut lone, _) = Worked::new(&[], &[0], 0);
    lone.customise();
    let itself = (Filled::Done, vec![0]);
    says("n = 1 from 0", lone.sweep(Way::From, 0, 1) == itself);
    says("n = 1 to 0", lone.sweep(Way::To, 0, 1) == itself);
}

fn sweep_refusals(says: &mut impl FnMut(&'static str, bool)) {
    let (mut n4, _) = Worked::new(&N4, &[3, 2, 1, 0], 5);
    n4.customise();
    let refused = |refusal, list| (Filled::Refused(refusal), list);
    for room in [0, 3, 5] {
        let left = refused(Refusal::DistanceRoom, vec![77; room]);
        says(
            "a list that isn't n long",
            n4.sweep(Way::From, 0, room) == left,
        );
        says(
            "the mirror's list isn't n long",
            n4.sweep(Way::To, 0, room) == left,
        );
    }
    let nobody = refused(Refusal::StartOrTarget, vec![77; 5]);
    says("a sweep from n", n4.sweep(Way::From, 4, 5) == nobody);
    says("a sweep to n", n4.sweep(Way::To, 4, 5) == nobody);

    // 1 to 0, the only way to 0, made dear; 0 to 2 costs 4, 2 to 3 costs 2, 3 to 1 costs 6, 1 to 3 costs 20
    n4.up[4] = CLOSED - 5;
    let near = (Filled::Done, vec![CLOSED - 5, 0, CLOSED - 1, 20]);
    let all_closed = |junction| refused(Refusal::TooFar(junction), vec![CLOSED; 4]);
    says("near enough from 1", n4.sweep(Way::From, 1, 4) == near);
    says("too far from 3", n4.sweep(Way::From, 3, 4) == all_closed(0));
    says("too far to 0", n4.sweep(Way::To, 0, 4) == all_closed(2));
    n4.up[4] = CLOSED - 4;
    says(
        "just too far from 1",
        n4.sweep(Way::From, 1, 4) == all_closed(2),
    );
}

fn changes(says: &mut impl FnMut(&'static str, bool)) {
    let (mut n4, _) = Worked::new(&N4, &[0, 1, 2, 3], 6);
    n4.customise();
    // what stands past E is kept
    (n4.up[5], n4.down[5]) = (77, 78);
    let one = Changed::Triangles(1);
    says("arc 2 closed by a change", n4.change(2, CLOSED) == one);
    says("its cost", n4.costs == [3, 4, CLOSED, 6, 20]);
    says("P7 up", n4.up == [CLOSED, 4, 7, 20, CLOSED, 77]);
    says("P7 down", n4.down == [3, CLOSED, CLOSED, 6, 13, 78]);
    says("P7 by a change", n4.distance(0, 1) == Distance::NoWalk);
    says("P7's other", n4.distance(1, 3) == Distance::Tenths(20));
    says("arc 2 opened by a change", n4.change(2, 2) == one);
    says("P2's costs again", n4.costs == [3, 4, 2, 6, 20]);
    says("P2 up again", n4.up == [CLOSED, 4, 7, 20, 2, 77]);
    says("P2 down again", n4.down == [3, CLOSED, CLOSED, 6, 13, 78]);
    says("P4 again", n4.distance(0, 1) == Distance::Tenths(12));
    says("the same cost", n4.change(2, 2) == Changed::Triangles(0));
    // 1 to 2 over 0, then 3 to 2 over 1
    says(
        "a change from below",
        n4.change(0, 5) == Changed::Triangles(2),
    );
    says("up after it", n4.up == [CLOSED, 4, 9, 20, 2, 77]);
    says("down after it", n4.down == [5, CLOSED, CLOSED, 6, 15, 78]);

    let mut p8 = N4.to_vec();
    p8[2].2 = CLOSED;
    p8.extend([(1, 3, 30), (2, 2, 9)]);
    let (mut n4, _) = Worked::new(&p8, &[0, 1, 2, 3], 5);
    n4.customise();
    let (up, down) = (n4.up.clone(), n4.down.clone());
    let none = Changed::Triangles(0);
    says("a hidden arc", n4.change(4, 25) == none);
    says("an arc with equal ends", n4.change(6, CLOSED) == none);
    says("their costs", n4.costs == [3, 4, CLOSED, 6, 25, 30, CLOSED]);
    says("nothing else", (n4.up, n4.down) == (up, down));
}

fn change_refusals(says: &mut impl FnMut(&'static str, bool)) {
    let (mut n4, _) = Worked::new(&N4, &[3, 2, 1, 0], 5);
    n4.customise();
    let (up, down) = (n4.up.clone(), n4.down.clone());
    let refused = |refusal| Changed::Refused(refusal);
    says("arc 5 of 5", n4.change(5, 1) == refused(Refusal::ArcNumber));
    says("17, then 9", n4.change(9, 0) == refused(Refusal::ArcNumber));
    for (name, cost) in [("to 0", 0), ("to 500,001", 500_001), ("nearly", CLOSED - 1)] {
        says(name, n4.change(3, cost) == refused(Refusal::ArcCost(3)));
    }
    says("nothing changed", n4.costs == [3, 4, 2, 6, 20]);
    n4.costs[1] = 0;
    let standing = refused(Refusal::ArcCost(1));
    says("a standing 0", n4.change(1, 4) == standing);
    says("a standing 0, then 17", n4.change(5, 4) == standing);
    says("a standing 0 stays", n4.costs == [3, 0, 2, 6, 20]);
    says("no edge changed", (n4.up, n4.down) == (up, down));
}
