//! The calls with one fault planted, chosen by number. The runs must find each.

#![allow(unsafe_code)]

mod changes;
mod sloppy;
mod sweeps;

pub use changes::change;
pub use sweeps::sweep;

use crate::{sound, Asked};
use plain::CLOSED;
use slices::{Arcs, CostRoom, Costs, Graph, GraphRoom, Roads, Told};

/// The planted fault's number, 0 for none.
#[cfg(feature = "wrong")]
pub fn fault() -> u32 {
    static PLANTED: std::sync::OnceLock<u32> = std::sync::OnceLock::new();
    *PLANTED.get_or_init(|| {
        let named = std::env::var("GRIEZMULD_WRONG").unwrap_or_default();
        named.parse().unwrap_or(0)
    })
}

/// The planted fault's number: none can be planted.
#[cfg(not(feature = "wrong"))]
pub const fn fault() -> u32 {
    0
}

/// What each fault is, in words.
pub const FAULTS: [&str; 95] = [
    "refuses all",
    "distance and route always say none",
    "distance and route always say 0",
    "route always hands back the same route",
    "every list is left untouched",
    "only row 0 is customised, later rows hold arc costs",
    "E is made up",
    "CLOSED + 3 is 2",
    "only neighbours that the input joined are joined",
    "a closed arc needs no edge",
    "the search stops where the two chains first touch",
    "triangles are used before their costs are final",
    "the highest z",
    "the highest q",
    "the highest meeting position",
    "a full route list is told before a piece that fits nothing",
    "route places past the route are left",
    "places of heads past E are left",
    "places of up and down past E are left",
    "after 6 the lists are left",
    "after 12 or 13 the arcs written so far are left",
    "a refusal's place is always 0",
    "9 is told before 8",
    "the first listing is in force",
    "a later closed listing hides nothing",
    "the parent rule isn't tested",
    "one place past the heads room is written",
    "a distance of CLOSED or more is none",
    "a z fits if its sum does in 32 bits",
    "n = 4,096 is refused",
    "16,384 arcs are refused",
    "up and down must be as long as heads",
    "a longer rank room is accepted",
    "for none the route list is left",
    "start = target is answered before any check",
    "heads longer than E are no hierarchy",
    "an arc cheaper than its piece fits",
    "a list lent for reading is written",
    "a refusal tells a distance",
    "a bad tail is told before a bad head of a lower arc",
    "a repeated order entry is told at its earlier position",
    "9 skips arcs with equal ends",
    "8 skips arcs that a later listing hides",
    "10 is told before 9",
    "a label of 0 above the start is none",
    "the number of arcs is made up",
    "the two sweeps are exchanged",
    "a sweep lists none as 0",
    "the place of 16 is a position",
    "the place of 16 is the highest junction",
    "after 16 the distance list is left",
    "after 16 the distances found are left",
    "after 15 the distance list is all CLOSED",
    "a sweep fills in only the chain above its end",
    "a sweep leaves the distance list and says done",
    "a sweep lists distances by position",
    "a longer distance list is accepted",
    "a shorter distance list is accepted",
    "16 is told before 15",
    "15 is told before 11",
    "none is told as 16",
    "a sweep takes what is CLOSED or more half way for none",
    "a distance of just CLOSED is listed",
    "a sweep climbs by the costs of the way down",
    "a sweep goes on over CLOSED on the way down",
    "a sweep goes down from the lowest position",
    "a sweep doesn't test the parent rule",
    "a sweep refuses n = 4,096",
    "one place past the distance list is written",
    "change leaves the arcs' costs",
    "change counts each triangle twice",
    "change counts a triangle for each direction that changed",
    "change reconsiders every edge",
    "change reconsiders only the edge between the arc's ends",
    "change doesn't see a down cost that changed",
    "change makes places past E CLOSED",
    "change stops at the first edge that stays as it was",
    "change holds a new up cost to the old down cost",
    "an arc number just past the last is accepted",
    "9 for the new cost is told before 17",
    "the place of 9 for the new cost is 0",
    "a refused new cost stays in the cost list",
    "change cuts a sum over CLOSED to 32 bits",
    "change takes a hidden arc for one in force",
    "change reconsiders the arc's edge at an equal cost",
    "change leaves the other direction of the arc's edge",
    "one place past the up list is written by change",
    "change adds up the costs of before",
    "change mends a standing cost that is at fault",
    "change refuses n = 4,096",
    "change forgets what changed past 65,536 edges",
    "change refuses to close an arc",
    "change leaves the shortcut costs",
    "17 is told before 9 for a standing cost",
    "change counts only triangles with a changed edge",
];

/// 1: the refusal of everything.
const NO: Told = Told {
    number: 1,
    place: 0,
    edges: 0,
    distance: 0,
    arcs: 0,
    triangles: 0,
};

/// The arcs' heads and costs as a faulty check sees them.
fn seen(roads: Roads) -> (Vec<u32>, Vec<u32>) {
    let tails = roads.arcs.tails;
    let (mut heads, mut costs) = (roads.arcs.heads.to_vec(), roads.costs.to_vec());
    let arcs = tails.len().min(heads.len()).min(costs.len());
    for arc in 0..arcs {
        if fault() == 42 && tails[arc] == heads[arc] {
            costs[arc] = 1;
        }
        let hidden =
            (arc + 1..arcs).any(|later| tails[later] == tails[arc] && heads[later] == heads[arc]);
        if fault() == 43 && hidden && tails[arc] < 4_096 && heads[arc] < 4_096 {
            heads[arc] = tails[arc];
        }
    }
    (heads, costs)
}

/// The roads with other heads.
fn with_heads<'a>(roads: Roads<'a>, heads: &'a [u32]) -> Roads<'a> {
    let arcs = Arcs {
        heads,
        ..roads.arcs
    };
    Roads { arcs, ..roads }
}

/// The place of a refusal as a faulty check tells it.
fn misplaced(mut reply: Told, arcs: Arcs, order: &[u32]) -> Told {
    if fault() == 40 && reply.number == 3 {
        let mut tails = arcs.tails.iter();
        let bad_tail = tails.position(|&tail| tail as usize >= order.len());
        reply.place = bad_tail.map_or(reply.place, |arc| arc as u64);
    }
    if fault() == 41 && reply.number == 4 {
        let entry = order[reply.place as usize];
        let earlier = order.iter().position(|&other| other == entry);
        reply.place = earlier.map_or(reply.place, |at| at as u64);
    }
    reply
}

/// What is told of a reply.
fn told(mut reply: Told) -> Told {
    if fault() == 22 {
        reply.place = 0;
    }
    reply
}

/// The same of a call that tells a distance.
fn told_with_distance(mut reply: Told) -> Told {
    if fault() == 39 && reply.number != 0 {
        reply.distance = 7;
    }
    told(reply)
}

pub fn build(arcs: Arcs, order: &[u32], room: GraphRoom) -> Told {
    let old = [&room.rank, &room.first, &room.row_heads].map(|list| list.to_vec());
    let n = order.len();
    match fault() {
        1 => return NO,
        30 if n == 4_096 => return NO,
        31 if n <= 4_096 && arcs.tails.len() == 16_384 => return Told { number: 2, ..NO },
        27 => {
            // SAFETY: none; the guard behind the room is there to be written
            unsafe { *room.row_heads.as_mut_ptr().add(room.row_heads.len()) = 0 };
        }
        _ => {}
    }
    let lent = GraphRoom {
        rank: match fault() {
            33 if room.rank.len() > n => &mut room.rank[..n],
            _ => room.rank,
        },
        first: room.first,
        row_heads: room.row_heads,
    };
    let mut reply = sound::build(arcs, order, lent);
    let accepted = reply.number == 0;
    match fault() {
        7 if accepted => reply.edges += 1,
        9 if accepted => reply.edges = sloppy::join_input_neighbours(arcs, room),
        18 if accepted => {
            let edges = reply.edges as usize;
            room.row_heads[edges..].copy_from_slice(&old[2][edges..]);
        }
        5 | 20 if fault() == 5 || reply.number == 6 => {
            room.rank.copy_from_slice(&old[0]);
            room.first.copy_from_slice(&old[1]);
            room.row_heads.copy_from_slice(&old[2]);
        }
        _ => {}
    }
    told(misplaced(reply, arcs, order))
}

pub fn customise(roads: Roads, graph: Graph, room: CostRoom) -> Told {
    let old = [&room.up, &room.down].map(|list| list.to_vec());
    match fault() {
        1 => return NO,
        30 if graph.order.len() == 4_096 => return NO,
        32 if room.up.len() < graph.row_heads.len() => return Told { number: 10, ..NO },
        38 if !roads.arcs.tails.is_empty() => {
            // SAFETY: none; a list lent for reading is written
            unsafe { *roads.arcs.tails.as_ptr().cast_mut() = 0 };
        }
        _ => {}
    }
    let (heads, costs) = seen(roads);
    let roads_seen = Roads {
        costs: &costs,
        ..with_heads(roads, &heads)
    };
    let lent = CostRoom {
        up: room.up,
        down: room.down,
    };
    let reply = sound::customise(roads_seen, graph, lent);
    let reply = customise_wrongly(reply, roads, graph, room, old);
    told(misplaced(reply, roads.arcs, graph.order))
}

/// What is left of a sound customise, whose room held the old costs before.
fn customise_wrongly(
    reply: Told,
    roads: Roads,
    graph: Graph,
    room: CostRoom,
    old: [Vec<u32>; 2],
) -> Told {
    let accepted = reply.number == 0;
    let edges = graph.first.last().map_or(0, |&edges| edges as usize);
    let from = match fault() {
        5 => 0,
        6 | 8 | 12 | 24 | 25 if accepted => {
            sloppy::customise(roads, graph, room);
            return reply;
        }
        10 if reply.number == 8 && roads.costs[reply.place as usize] == CLOSED => {
            return sound::customise(with_heads(roads, &without_closed(roads)), graph, room);
        }
        19 if accepted => edges,
        23 if reply.number == 8 => return nine_first(reply, roads.costs),
        36 if accepted && graph.row_heads.len() > edges => 0,
        44 if reply.number == 9 && (room.up.len() < edges || room.down.len() < edges) => {
            return Told { number: 10, ..NO };
        }
        _ => return reply,
    };
    room.up[from..].copy_from_slice(&old[0][from..]);
    room.down[from..].copy_from_slice(&old[1][from..]);
    match fault() {
        36 => Told { number: 7, ..NO },
        _ => reply,
    }
}

pub fn distance(graph: Graph, costs: Costs, from: u32, to: u32) -> Told {
    match fault() {
        1 => return NO,
        35 if from == to => return Told::default(),
        _ => {}
    }
    let mut reply = sound::distance(graph, costs, from, to);
    let accepted = reply.number == 0;
    match fault() {
        2 if accepted => reply.distance = u64::MAX,
        3 if accepted => reply.distance = 0,
        11 | 45 if accepted => reply.distance = sloppy::distance(graph, costs, from, to),
        26 if reply.number == 7 && sloppy::all_but_parents(graph, costs, from, to) => {
            reply = Told {
                distance: sloppy::distance(graph, costs, from, to),
                ..Told::default()
            };
        }
        28 if reply.distance >= u64::from(CLOSED) => reply.distance = u64::MAX,
        _ => {}
    }
    told_with_distance(reply)
}

pub fn route(asked: Asked, route: &mut [u32]) -> Told {
    let old = route.to_vec();
    let Asked { roads, graph, .. } = asked;
    match fault() {
        1 => return NO,
        35 if asked.from == asked.to => {
            route.fill(CLOSED);
            return Told::default();
        }
        _ => {}
    }
    let (heads, costs) = seen(roads);
    let mut asked_seen = Asked {
        roads: Roads {
            costs: &costs,
            ..with_heads(roads, &heads)
        },
        ..asked
    };
    if fault() == 4 && sound::route(asked, &mut old.clone()).number == 0 {
        (asked_seen.from, asked_seen.to) = (0, graph.order.len() as u32 - 1);
    }
    let reply = sound::route(asked_seen, route);
    let reply = route_wrongly(reply, asked, route, &old);
    told_with_distance(misplaced(reply, roads.arcs, graph.order))
}

/// What is left of a sound route, whose list held the old words before.
fn route_wrongly(mut reply: Told, asked: Asked, route: &mut [u32], old: &[u32]) -> Told {
    let roads = asked.roads;
    let accepted = reply.number == 0;
    match fault() {
        2 | 3 if accepted => {
            route.fill(CLOSED);
            reply.distance = if fault() == 2 { u64::MAX } else { 0 };
            reply.arcs = 0;
        }
        5 => route.copy_from_slice(old),
        10 if reply.number == 8 && roads.costs[reply.place as usize] == CLOSED => {
            let heads = without_closed(roads);
            let roads = with_heads(roads, &heads);
            return sound::route(Asked { roads, ..asked }, route);
        }
        11 | 13 | 14 | 15 | 16 | 21 | 24 | 25 | 29 | 37 | 45
            if accepted || reply.number == 12 || reply.number == 13 =>
        {
            return sloppy::route(asked, route);
        }
        17 if accepted && reply.distance != u64::MAX => {
            let arcs = reply.arcs as usize;
            route[arcs..].copy_from_slice(&old[arcs..]);
        }
        23 if reply.number == 8 => return nine_first(reply, roads.costs),
        28 if reply.distance >= u64::from(CLOSED) => {
            route.fill(CLOSED);
            reply.distance = u64::MAX;
            reply.arcs = 0;
        }
        46 if reply.arcs > 0 => reply.arcs += 1,
        34 if accepted && reply.distance == u64::MAX => route.copy_from_slice(old),
        _ => {}
    }
    reply
}

/// The heads, with which closed arcs become arcs with equal ends.
fn without_closed(roads: Roads) -> Vec<u32> {
    let ends = roads.arcs.tails.iter().zip(roads.arcs.heads);
    let heads = ends
        .zip(roads.costs)
        .map(|((&tail, &head), &cost)| match cost {
            CLOSED => tail,
            _ => head,
        });
    heads.collect()
}

fn nine_first(reply: Told, costs: &[u32]) -> Told {
    let unlawful = |&cost: &u32| cost == 0 || (cost > 500_000 && cost != CLOSED);
    match costs.iter().position(unlawful) {
        Some(arc) => Told {
            number: 9,
            place: arc as u64,
            ..NO
        },
        None => reply,
    }
}
