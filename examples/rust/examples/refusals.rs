//! Every refusal, brought about by a call: prints its number and its words, as examples/c/refusals.c does.

use griezmuld::{
    Arcs, Built, Changed, CostRoom, Costs, Distance, Filled, Graph, GraphRoom, Refusal, RoadRoom,
    Roads, Route, Way, CLOSED,
};

/// All lists of a net, two junctions, and an arc with its new cost.
#[derive(Clone)]
struct Lists {
    tails: Vec<u32>,
    heads: Vec<u32>,
    costs: Vec<u32>,
    order: Vec<u32>,
    rank: Vec<u32>,
    first: Vec<u32>,
    row_heads: Vec<u32>,
    up: Vec<u32>,
    down: Vec<u32>,
    route: Vec<u32>,
    distances: Vec<u32>,
    from: u32,
    to: u32,
    arc: u32,
    cost: u32,
}

/// A call on lists: why it refused, if it did.
type Call = fn(Lists) -> Option<Refusal>;

impl Lists {
    /// Junction 0 to 1 to 2, one way, with its graph and costs: every call accepts it.
    fn road() -> Lists {
        Lists {
            tails: vec![0, 1],
            heads: vec![1, 2],
            costs: vec![120, 150],
            order: vec![0, 1, 2],
            rank: vec![0, 1, 2],
            first: vec![0, 1, 2, 2],
            row_heads: vec![1, 2],
            up: vec![120, 150],
            down: vec![CLOSED; 2],
            route: vec![0; 2],
            distances: vec![0; 3],
            from: 0,
            to: 2,
            arc: 1,
            cost: CLOSED,
        }
    }

    fn roads(&self) -> Roads<'_> {
        Roads {
            arcs: Arcs {
                tails: &self.tails,
                heads: &self.heads,
            },
            costs: &self.costs,
        }
    }

    fn graph(&self) -> Graph<'_> {
        Graph {
            order: &self.order,
            rank: &self.rank,
            first: &self.first,
            row_heads: &self.row_heads,
        }
    }

    fn edge_costs(&self) -> Costs<'_> {
        Costs {
            up: &self.up,
            down: &self.down,
        }
    }
}

fn build(lists: Lists) -> Option<Refusal> {
    let mut room = lists.clone();
    let room = GraphRoom {
        rank: &mut room.rank,
        first: &mut room.first,
        row_heads: &mut room.row_heads,
    };
    match griezmuld::build(lists.roads().arcs, &lists.order, room) {
        Built::Edges(_) => None,
        Built::Refused(refusal) => Some(refusal),
    }
}

fn customise(lists: Lists) -> Option<Refusal> {
    let mut room = lists.clone();
    let room = CostRoom {
        up: &mut room.up,
        down: &mut room.down,
    };
    why_unfilled(griezmuld::customise(lists.roads(), lists.graph(), room))
}

fn change(lists: Lists) -> Option<Refusal> {
    let mut room = lists.clone();
    let roads = RoadRoom {
        arcs: lists.roads().arcs,
        costs: &mut room.costs,
    };
    let edges = CostRoom {
        up: &mut room.up,
        down: &mut room.down,
    };
    match griezmuld::change(roads, lists.graph(), edges, lists.arc, lists.cost) {
        Changed::Triangles(_) => None,
        Changed::Refused(refusal) => Some(refusal),
    }
}

fn distance(lists: Lists) -> Option<Refusal> {
    let (graph, costs) = (lists.graph(), lists.edge_costs());
    match griezmuld::distance(graph, costs, lists.from, lists.to) {
        Distance::Refused(refusal) => Some(refusal),
        _ => None,
    }
}

fn sweep_from(lists: Lists) -> Option<Refusal> {
    sweep(Way::From, lists.from, lists)
}

fn sweep_to(lists: Lists) -> Option<Refusal> {
    sweep(Way::To, lists.to, lists)
}

fn sweep(way: Way, end: u32, lists: Lists) -> Option<Refusal> {
    let mut room = lists.distances.clone();
    let (graph, costs) = (lists.graph(), lists.edge_costs());
    why_unfilled(griezmuld::sweep(way, graph, costs, end, &mut room))
}

fn route(lists: Lists) -> Option<Refusal> {
    let mut room = lists.route.clone();
    let (roads, graph, costs) = (lists.roads(), lists.graph(), lists.edge_costs());
    match griezmuld::route(roads, graph, costs, lists.from, lists.to, &mut room) {
        Route::Refused(refusal) => Some(refusal),
        _ => None,
    }
}

fn why_unfilled(answer: Filled) -> Option<Refusal> {
    match answer {
        Filled::Done => None,
        Filled::Refused(refusal) => Some(refusal),
    }
}

/// A refusal, the fault that brings it about, and the call that refuses.
type Fault = (Refusal, fn(&mut Lists), Call);

const FAULTS: [Fault; 16] = [
    (Refusal::JunctionCount, |l| l.order.clear(), build),
    (Refusal::ArcLists, |l| l.tails.truncate(1), build),
    (Refusal::ArcEnd(1), |l| l.heads[1] = 3, build),
    (Refusal::OrderEntry(2), |l| l.order[2] = 0, build),
    (Refusal::RankOrFirstRoom, |l| l.rank.truncate(2), build),
    (Refusal::HeadsRoom, |l| l.row_heads.truncate(1), build),
    (Refusal::NotAHierarchy, |l| l.row_heads[1] = 1, distance),
    (
        Refusal::ArcWithoutEdge(1),
        |l| l.first = vec![0, 1, 1, 1],
        customise,
    ),
    (Refusal::ArcCost(1), |l| l.costs[1] = 0, customise),
    (Refusal::CostLists, |l| l.up.truncate(1), customise),
    (Refusal::StartOrTarget, |l| l.to = 3, sweep_to),
    (Refusal::RouteRoom, |l| l.route.truncate(1), route),
    (Refusal::PieceFitsNothing, |l| l.costs[0] = 121, route),
    (
        Refusal::DistanceRoom,
        |l| l.distances.truncate(2),
        sweep_from,
    ),
    (Refusal::TooFar(2), |l| l.up[0] = CLOSED - 1, sweep_from),
    (Refusal::ArcNumber, |l| l.arc = 2, change),
];

fn main() {
    for call in [
        build, customise, change, distance, sweep_from, sweep_to, route,
    ] {
        assert_eq!(call(Lists::road()), None, "the lists without a fault");
    }
    for (refusal, spoil, call) in FAULTS {
        let mut lists = Lists::road();
        spoil(&mut lists);
        assert_eq!(call(lists), Some(refusal));
        println!("{}: {refusal}", refusal.number());
    }
}
