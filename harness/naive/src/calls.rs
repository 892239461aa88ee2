//! All that each call has to reply and to leave, for any lists.

use crate::changed::{Change, EdgeCosts};
use crate::customised::customised;
use crate::graph::Graph;
use crate::labels::{labels, meeting, Held, Label, Meeting, Way};
use crate::refusals::{self, refusal, Refusal};
use crate::roads::Roads;
use crate::sweeps::{swept, Sweep};
use crate::unpacking::{met, pieces, Met};
use crate::{CLOSED, NO_WALK};

/// The numbers that a call tells. Those that it doesn't tell are 0.
#[derive(Clone, Copy, Debug, Default, PartialEq, Eq)]
pub struct Told {
    /// The refusal's number, 0 when accepted.
    pub number: u32,
    /// The refusal's place, 0 when accepted.
    pub place: u64,
    /// E, by build.
    pub edges: u64,
    /// The distance, or the number for "none".
    pub distance: u64,
    /// The number of arcs of the route.
    pub arcs: u64,
    /// The number of lower triangles, by change.
    pub triangles: u64,
}

impl From<Refusal> for Told {
    fn from(refusal: Refusal) -> Told {
        Told {
            number: refusal.number,
            place: refusal.place,
            ..Told::default()
        }
    }
}

/// What every call gets of the roads and the order.
#[derive(Clone, Copy)]
pub struct Roadmap<'a> {
    /// The arcs' tails.
    pub tails: &'a [u32],
    /// The arcs' heads.
    pub heads: &'a [u32],
    /// The arcs' costs.
    pub costs: &'a [u32],
    /// The order.
    pub order: &'a [u32],
}

/// What every call but build gets of the graph.
#[derive(Clone, Copy)]
pub struct Rows<'a> {
    /// The rank list.
    pub rank: &'a [u32],
    /// Where each row starts.
    pub first: &'a [u32],
    /// The rows.
    pub row_heads: &'a [u32],
}

/// What every call but build gets of the costs on the graph.
#[derive(Clone, Copy)]
pub struct Costs<'a> {
    /// The up list.
    pub up: &'a [u32],
    /// The down list.
    pub down: &'a [u32],
}

// ---- build

/// What build leaves.
#[derive(Clone, Debug, PartialEq, Eq)]
pub struct BuildLeaves {
    /// The numbers told.
    pub told: Told,
    /// The rank list.
    pub rank: Vec<u32>,
    /// Where each row starts.
    pub first: Vec<u32>,
    /// The rows.
    pub row_heads: Vec<u32>,
}

impl BuildLeaves {
    /// The lists, as the other calls get them.
    pub fn rows(&self) -> Rows<'_> {
        Rows {
            rank: &self.rank,
            first: &self.first,
            row_heads: &self.row_heads,
        }
    }
}

/// "Build: 1, 2, 3, 4, 5, 6; it gets no costs."
pub fn build(tails: &[u32], heads: &[u32], order: &[u32], room: Rows) -> BuildLeaves {
    let Rows {
        rank,
        first,
        row_heads,
    } = room;
    let n = order.len();
    let refused = refusal(1, refusals::junctions(n))
        .or_else(|| refusal(2, refusals::arc_lists(&[tails.len(), heads.len()])))
        .or_else(|| refusal(3, refusals::arc_ends(n, tails, heads)))
        .or_else(|| refusal(4, refusals::order_entries(order)))
        .or_else(|| refusal(5, refusals::rank_or_first_room(n, rank, first)));
    if let Some(refused) = refused {
        return BuildLeaves {
            told: refused.into(),
            rank: rank.to_vec(),
            first: first.to_vec(),
            row_heads: row_heads.to_vec(),
        };
    }
    let graph = Graph::by_the_game(order, tails, heads);
    // "after 6 rank, first and heads are all 0"
    if let Some(refused) = refusal(6, refusals::heads_room(graph.edges(), row_heads)) {
        return BuildLeaves {
            told: refused.into(),
            rank: vec![0; rank.len()],
            first: vec![0; first.len()],
            row_heads: vec![0; row_heads.len()],
        };
    }
    // "The rank list is its inverse"; "Places of heads past E become 0. Build replies E."
    let inverse = |junction| {
        order
            .iter()
            .position(|&j| j == junction)
            .expect("a permutation")
    };
    let mut rows = graph.heads();
    rows.resize(row_heads.len(), 0);
    BuildLeaves {
        told: Told {
            edges: graph.edges() as u64,
            ..Told::default()
        },
        rank: (0..n as u32)
            .map(|junction| inverse(junction) as u32)
            .collect(),
        first: graph.first(),
        row_heads: rows,
    }
}

// ---- customise

/// What customise leaves.
#[derive(Clone, Debug, PartialEq, Eq)]
pub struct CustomiseLeaves {
    /// The numbers told.
    pub told: Told,
    /// The up list.
    pub up: Vec<u32>,
    /// The down list.
    pub down: Vec<u32>,
}

impl CustomiseLeaves {
    /// The lists, as the calls that ask get them.
    pub fn held(&self) -> Costs<'_> {
        Costs {
            up: &self.up,
            down: &self.down,
        }
    }
}

/// "Customise: 1, 2, 3, 4, 7, 8, 9, 10."
pub fn customise(map: Roadmap, rows: Rows, room: Costs) -> CustomiseLeaves {
    let Costs { up, down } = room;
    if let Some(refused) = customise_refusal(map, rows, room) {
        return CustomiseLeaves {
            told: refused.into(),
            up: up.to_vec(),
            down: down.to_vec(),
        };
    }
    let graph = Graph::of_lists(map.order.len(), rows.first, rows.row_heads);
    let roads = Roads::of(map.tails, map.heads, map.costs);
    let (mut up_costs, mut down_costs) = customised(&graph, map.order, &roads);
    // "Places past E become CLOSED."
    up_costs.resize(up.len(), CLOSED);
    down_costs.resize(down.len(), CLOSED);
    CustomiseLeaves {
        told: Told::default(),
        up: up_costs,
        down: down_costs,
    }
}

fn customise_refusal(map: Roadmap, rows: Rows, held: Costs) -> Option<Refusal> {
    let Roadmap {
        tails,
        heads,
        costs,
        order,
    } = map;
    let Rows {
        rank,
        first,
        row_heads,
    } = rows;
    let n = order.len();
    let lengths = [tails.len(), heads.len(), costs.len()];
    refusal(1, refusals::junctions(n))
        .or_else(|| refusal(2, refusals::arc_lists(&lengths)))
        .or_else(|| refusal(3, refusals::arc_ends(n, tails, heads)))
        .or_else(|| refusal(4, refusals::order_entries(order)))
        .or_else(|| refusal(7, refusals::hierarchy(order, rank, first, row_heads)))
        .or_else(|| {
            let fault = refusals::arcs_without_edge(tails, heads, rank, first, row_heads);
            refusal(8, fault)
        })
        .or_else(|| refusal(9, refusals::arc_costs(costs)))
        .or_else(|| {
            let fault = refusals::cost_lists(first[n] as usize, held.up, held.down);
            refusal(10, fault)
        })
}

// ---- change

/// What change leaves.
#[derive(Clone, Debug, PartialEq, Eq)]
pub struct ChangeLeaves {
    /// The numbers told.
    pub told: Told,
    /// The arcs' costs.
    pub costs: Vec<u32>,
    /// The up list.
    pub up: Vec<u32>,
    /// The down list.
    pub down: Vec<u32>,
}

/// "Refusals: customise's on the lists as they stand, then 17 for an unlisted arc number, then 9 for the new cost (place
/// the arc)"; "the cost list and shortcut costs change together or not at all".
pub fn change(map: Roadmap, rows: Rows, held: Costs, arc: u32, cost: u32) -> ChangeLeaves {
    let Roadmap { tails, heads, .. } = map;
    let refused = customise_refusal(map, rows, held)
        .or_else(|| refusal(17, refusals::arc_number(tails.len(), arc)))
        .or_else(|| refusal(9, refusals::new_cost(arc, cost)));
    let old = EdgeCosts {
        up: held.up.to_vec(),
        down: held.down.to_vec(),
    };
    let mut costs = map.costs.to_vec();
    if let Some(refused) = refused {
        return ChangeLeaves {
            told: refused.into(),
            costs,
            up: old.up,
            down: old.down,
        };
    }
    costs[arc as usize] = cost;
    let change = Change {
        graph: &Graph::of_lists(map.order.len(), rows.first, rows.row_heads),
        order: map.order,
        before: &Roads::of(tails, heads, map.costs),
        after: &Roads::of(tails, heads, &costs),
    };
    let (left, triangles) = change.carry(&old);
    ChangeLeaves {
        told: Told {
            triangles,
            ..Told::default()
        },
        costs,
        up: left.up,
        down: left.down,
    }
}

// ---- distance

/// "Distance: 1, 4, 7, 10, 11."
pub fn distance(order: &[u32], rows: Rows, costs: Costs, from: u32, to: u32) -> Told {
    match distance_refusal(order, rows, costs, &[from, to]) {
        Some(refused) => refused.into(),
        None => Asked::of(order, rows, costs).distance(from, to),
    }
}

fn distance_refusal(order: &[u32], rows: Rows, costs: Costs, ends: &[u32]) -> Option<Refusal> {
    let n = order.len();
    refusal(1, refusals::junctions(n))
        .or_else(|| refusal(4, refusals::order_entries(order)))
        .or_else(|| {
            let fault = refusals::hierarchy(order, rows.rank, rows.first, rows.row_heads);
            refusal(7, fault)
        })
        .or_else(|| {
            let fault = refusals::cost_lists(rows.first[n] as usize, costs.up, costs.down);
            refusal(10, fault)
        })
        .or_else(|| refusal(11, refusals::start_or_target(n, ends)))
}

// ---- sweeps

/// What a sweep leaves.
#[derive(Clone, Debug, PartialEq, Eq)]
pub struct SweepLeaves {
    /// The numbers told.
    pub told: Told,
    /// The distance list.
    pub distances: Vec<u32>,
}

/// "Refusals: 1, 4, 7, 10, 11, then 15 if the distance list isn't n long, then 16".
pub fn sweep(
    order: &[u32],
    rows: Rows,
    costs: Costs,
    sweep: Sweep,
    distances: &[u32],
) -> SweepLeaves {
    let refused = distance_refusal(order, rows, costs, &[sweep.dairy()])
        .or_else(|| refusal(15, refusals::distance_list(order.len(), distances)));
    match refused {
        Some(refused) => SweepLeaves {
            told: refused.into(),
            distances: distances.to_vec(),
        },
        None => listed(&Asked::of(order, rows, costs).far(sweep)),
    }
}

/// "The filled list of 32-bit numbers holds, for each junction, what the distance call says, CLOSED for none"; "16 for
/// the lowest junction whose distance isn't below CLOSED"; "after 16 the list is all CLOSED".
pub fn listed(far: &[Option<u64>]) -> SweepLeaves {
    if let Some(refused) = refusal(16, refusals::too_far(far)) {
        return SweepLeaves {
            told: refused.into(),
            distances: vec![CLOSED; far.len()],
        };
    }
    SweepLeaves {
        told: Told::default(),
        distances: far
            .iter()
            .map(|far| far.map_or(CLOSED, |far| far as u32))
            .collect(),
    }
}

// ---- route

/// What route leaves.
#[derive(Clone, Debug, PartialEq, Eq)]
pub struct RouteLeaves {
    /// The numbers told.
    pub told: Told,
    /// The route list.
    pub route: Vec<u32>,
}

/// "Route: 1, 2, 3, 4, 7, 8, 9, 10, 11, then 12 and 13".
pub fn route(
    map: Roadmap,
    rows: Rows,
    costs: Costs,
    from: u32,
    to: u32,
    route: &[u32],
) -> RouteLeaves {
    let refused = customise_refusal(map, rows, costs).or_else(|| {
        let fault = refusals::start_or_target(map.order.len(), &[from, to]);
        refusal(11, fault)
    });
    if let Some(refused) = refused {
        return RouteLeaves {
            told: refused.into(),
            route: route.to_vec(),
        };
    }
    let roads = Roads::of(map.tails, map.heads, map.costs);
    let mut asked = Asked::of(map.order, rows, costs);
    let drive = asked.drive(&roads, from, to, route.len());
    drive.into_room(route.len())
}

/// Up to so many junctions a sweep's distances are taken pair by pair.
pub const MOST_DEFINED: usize = 60;

/// Lists that have passed every check, ready for many questions. Labels are worked out once for each end.
pub struct Asked<'a> {
    order: &'a [u32],
    rank: &'a [u32],
    held: Held<'a>,
    from_start: Vec<Option<Vec<Option<Label>>>>,
    from_target: Vec<Option<Vec<Option<Label>>>>,
}

impl<'a> Asked<'a> {
    /// The lists, which must have passed.
    pub fn of(order: &'a [u32], rows: Rows<'a>, costs: Costs<'a>) -> Asked<'a> {
        let n = order.len();
        Asked {
            order,
            rank: rows.rank,
            held: Held {
                graph: Graph::of_lists(n, rows.first, rows.row_heads),
                up: costs.up,
                down: costs.down,
            },
            from_start: vec![None; n],
            from_target: vec![None; n],
        }
    }

    /// What distance tells.
    pub fn distance(&mut self, from: u32, to: u32) -> Told {
        Told {
            distance: self.meet(from, to).map_or(NO_WALK, |meeting| meeting.sum),
            ..Told::default()
        }
    }

    /// The distance of every junction, by definition: "what the distance call says".
    pub fn by_distances(&mut self, sweep: Sweep) -> Vec<Option<u64>> {
        let junctions = 0..self.order.len() as u32;
        junctions
            .map(|farm| {
                let (from, to) = sweep.pair(farm);
                self.meet(from, to).map(|meeting| meeting.sum)
            })
            .collect()
    }

    /// The same by the sweep: the list holds junctions where the sweep has positions.
    pub fn by_sweep(&self, sweep: Sweep) -> Vec<Option<u64>> {
        let way = match sweep {
            Sweep::From(_) => Way::Up,
            Sweep::To(_) => Way::Down,
        };
        let far = swept(&self.held, self.position(sweep.dairy()), way);
        let junctions = 0..self.order.len() as u32;
        junctions.map(|farm| far[self.position(farm)]).collect()
    }

    /// The same by definition where that doesn't take too long, else by the sweep.
    pub fn far(&mut self, sweep: Sweep) -> Vec<Option<u64>> {
        match self.order.len() {
            0..=MOST_DEFINED => self.by_distances(sweep),
            _ => self.by_sweep(sweep),
        }
    }

    /// What route meets between two junctions. Past `most` arcs it looks no further.
    pub fn drive(&mut self, roads: &Roads, from: u32, to: u32, most: usize) -> Drive {
        let Some(meeting) = self.meet(from, to) else {
            return Drive::Nowhere;
        };
        let (s, t) = (self.position(from), self.position(to));
        let from_start = self.from_start[s].as_ref().expect("worked out");
        let from_target = self.from_target[t].as_ref().expect("worked out");
        let pieces = pieces(from_start, from_target, meeting.position);
        Drive::Along {
            distance: meeting.sum,
            met: met(&self.held, roads, self.order, &pieces, most),
        }
    }

    /// "questions speak of junctions, the shortcut graph speaks of positions"
    fn position(&self, junction: u32) -> usize {
        self.rank[junction as usize] as usize
    }

    fn meet(&mut self, from: u32, to: u32) -> Option<Meeting> {
        let (s, t) = (self.position(from), self.position(to));
        let held = &self.held;
        let from_start = self.from_start[s].get_or_insert_with(|| labels(held, s, Way::Up));
        let from_target = self.from_target[t].get_or_insert_with(|| labels(held, t, Way::Down));
        meeting(from_start, from_target)
    }
}

/// What route meets between two junctions.
#[derive(Clone, Debug, PartialEq, Eq)]
pub enum Drive {
    /// "none"
    Nowhere,
    /// A distance, and what is met on the way.
    Along {
        /// The distance.
        distance: u64,
        /// Arcs, and a misfit at the end if there is one.
        met: Vec<Met>,
    },
}

impl Drive {
    /// How many arcs are met.
    pub fn arcs(&self) -> usize {
        match self {
            Drive::Nowhere => 0,
            Drive::Along { met, .. } => met.iter().filter(|&&met| met != Met::Misfit).count(),
        }
    }

    /// What route leaves in a room of so many places. "the route list holds arc numbers in driving order, and
    /// 4,294,967,295 in all other places"; "the first trouble met is the one given"; "after 12 or 13 every route place
    /// is 4,294,967,295".
    pub fn into_room(&self, room: usize) -> RouteLeaves {
        let mut route = vec![CLOSED; room];
        let Drive::Along { distance, met } = self else {
            let told = Told {
                distance: NO_WALK,
                ..Told::default()
            };
            return RouteLeaves { told, route };
        };
        for (arcs, event) in met.iter().enumerate() {
            let trouble = match event {
                Met::Misfit => 13,
                Met::Arc(_) if arcs == room => 12,
                Met::Arc(arc) => {
                    route[arcs] = *arc;
                    continue;
                }
            };
            let told = Told {
                number: trouble,
                ..Told::default()
            };
            return RouteLeaves {
                told,
                route: vec![CLOSED; room],
            };
        }
        let told = Told {
            distance: *distance,
            arcs: met.len() as u64,
            ..Told::default()
        };
        RouteLeaves { told, route }
    }
}

#[cfg(test)]
mod tests {
    use super::*;

    const N4: Roadmap = Roadmap {
        tails: &[1, 0, 2, 3, 1],
        heads: &[0, 2, 3, 1, 3],
        costs: &[3, 4, 2, 6, 20],
        order: &[0, 1, 2, 3],
    };

    /// N4's graph and costs, in rooms with a place to spare.
    fn worked() -> (BuildLeaves, CustomiseLeaves) {
        let room = Rows {
            rank: &[7; 4],
            first: &[7; 5],
            row_heads: &[7; 6],
        };
        let built = build(N4.tails, N4.heads, N4.order, room);
        let room = Costs {
            up: &[7; 5],
            down: &[7; 6],
        };
        let left = customise(N4, built.rows(), room);
        (built, left)
    }

    #[test]
    fn n4_is_as_the_paper_says() {
        let (built, left) = worked();
        assert_eq!(built.told.edges, 5);
        assert_eq!(built.first, [0, 2, 4, 5, 5]);
        assert_eq!(built.row_heads, [1, 2, 2, 3, 3, 0]);
        assert_eq!(left.up, [CLOSED, 4, 7, 20, 2]);
        assert_eq!(left.down, [3, CLOSED, CLOSED, 6, 13, CLOSED]);
        let (rows, costs) = (built.rows(), left.held());
        assert_eq!(distance(N4.order, rows, costs, 0, 1).distance, 12);
        let drive = route(N4, rows, costs, 1, 3, &[7; 4]);
        assert_eq!((drive.told.distance, drive.told.arcs), (9, 3));
        assert_eq!(drive.route, [0, 1, 2, CLOSED]);
        let short = route(N4, rows, costs, 1, 3, &[7; 2]);
        assert_eq!((short.told.number, short.route), (12, vec![CLOSED; 2]));
    }

    /// N4's lists after a change, and the lists that customise leaves for the costs then standing.
    fn after_change(
        map: Roadmap,
        held: Costs,
        arc: u32,
        cost: u32,
    ) -> (ChangeLeaves, CustomiseLeaves) {
        let (built, _) = worked();
        let left = change(map, built.rows(), held, arc, cost);
        let map = Roadmap {
            costs: &left.costs,
            ..map
        };
        let afresh = customise(map, built.rows(), held);
        (left, afresh)
    }

    #[test]
    fn closing_arc_2_of_n4_leaves_p7_and_opening_it_p2() {
        let (_, p2) = worked();
        let (shut, p7) = after_change(N4, p2.held(), 2, CLOSED);
        assert_eq!(shut.costs, [3, 4, CLOSED, 6, 20]);
        assert_eq!((&shut.up, &shut.down), (&p7.up, &p7.down));
        assert_eq!(shut.up, [CLOSED, 4, 7, 20, CLOSED]);
        assert_eq!(shut.down, [3, CLOSED, CLOSED, 6, 13, CLOSED]);
        assert_eq!((shut.told.number, shut.told.triangles), (0, 1));

        let costs = &shut.costs[..];
        let (open, _) = after_change(Roadmap { costs, ..N4 }, p7.held(), 2, 2);
        assert_eq!((open.costs.as_slice(), open.told.triangles), (N4.costs, 1));
        assert_eq!((open.up, open.down), (p2.up, p2.down));
    }

    #[test]
    fn what_changes_is_carried_upward() {
        // 1 to 0 at 5 makes 1 to 2 cost 9, over 0, and 3 to 2 cost 15, over 1: one lower triangle each
        let (_, p2) = worked();
        let (left, afresh) = after_change(N4, p2.held(), 0, 5);
        assert_eq!(left.up, [CLOSED, 4, 9, 20, 2]);
        assert_eq!(left.down, [5, CLOSED, CLOSED, 6, 15, CLOSED]);
        assert_eq!((left.up, left.down), (afresh.up, afresh.down));
        assert_eq!(left.told.triangles, 2);
    }

    #[test]
    fn a_hidden_arc_and_an_equal_cost_change_the_cost_list_alone() {
        let (built, _) = worked();
        let p8 = Roadmap {
            tails: &[1, 0, 2, 3, 1, 1],
            heads: &[0, 2, 3, 1, 3, 3],
            costs: &[3, 4, CLOSED, 6, 20, 30],
            order: N4.order,
        };
        let damaged = Costs {
            up: &[1, 2, 3, 4, 5],
            down: &[6, 7, 8, 9, 10, 11],
        };
        for (arc, cost, costs) in [
            (4, 25, [3, 4, CLOSED, 6, 25, 30]),
            (5, 30, [3, 4, CLOSED, 6, 20, 30]),
        ] {
            let left = change(p8, built.rows(), damaged, arc, cost);
            assert_eq!((left.told, left.costs), (Told::default(), costs.to_vec()));
            assert_eq!((&left.up[..], &left.down[..]), (damaged.up, damaged.down));
        }
    }

    #[test]
    fn on_damaged_costs_a_sum_of_closed_or_more_is_closed_and_no_other_edge_changes() {
        let (built, _) = worked();
        // 3 to 2 costs 3 to 1 and 1 to 2
        for (one_to_two, three_to_two) in [
            (CLOSED - 7, CLOSED - 1),
            (CLOSED - 6, CLOSED),
            (CLOSED - 5, CLOSED),
        ] {
            let (up, down) = ([1, 2, one_to_two, 4, 5, 77], [0, 7, 8, 6, 10, 78]);
            let (up, down) = (&up, &down);
            let left = change(N4, built.rows(), Costs { up, down }, 2, 9);
            assert_eq!(left.up, [1, 2, one_to_two, 4, 9, 77]);
            assert_eq!(left.down, [0, 7, 8, 6, three_to_two, 78]);
            assert_eq!(left.told.triangles, 1);
        }
    }

    #[test]
    fn a_standing_cost_is_refused_before_an_arc_number_and_that_before_a_new_cost() {
        let (built, p2) = worked();
        let dear = Roadmap {
            costs: &[3, 4, 2, 0, 500_001],
            ..N4
        };
        for (map, arc, cost, number, place) in [
            (dear, 5, 0, 9, 3),
            (N4, 5, 0, 17, 0),
            (N4, CLOSED, 7, 17, 0),
            (N4, 4, 0, 9, 4),
            (N4, 3, 500_001, 9, 3),
            (N4, 3, CLOSED - 1, 9, 3),
        ] {
            let left = change(map, built.rows(), p2.held(), arc, cost);
            assert_eq!((left.told.number, left.told.place), (number, place));
            assert_eq!(left.costs, map.costs);
            assert_eq!((left.up, left.down), (p2.up.clone(), p2.down.clone()));
        }
    }

    #[test]
    fn the_sweep_finds_what_the_distance_call_says() {
        let (built, left) = worked();
        let mut asked = Asked::of(N4.order, built.rows(), left.held());
        for dairy in 0..4 {
            for sweep in [Sweep::From(dairy), Sweep::To(dairy)] {
                assert_eq!(asked.by_sweep(sweep), asked.by_distances(sweep));
            }
        }
        let swept = |asked, room: &[u32]| sweep(N4.order, built.rows(), left.held(), asked, room);
        let from_0 = swept(Sweep::From(0), &[7; 4]);
        assert_eq!(from_0.told, Told::default());
        assert_eq!(from_0.distances, [0, 12, 4, 6]);
        let long = swept(Sweep::To(3), &[7; 5]);
        assert_eq!((long.told.number, long.distances), (15, vec![7; 5]));
        let nobody = swept(Sweep::To(4), &[7; 5]);
        assert_eq!((nobody.told.number, nobody.distances), (11, vec![7; 5]));
    }

    #[test]
    fn only_a_distance_of_closed_or_more_is_too_far() {
        let closed = u64::from(CLOSED);
        let nearest = listed(&[Some(0), None, Some(closed - 1)]);
        assert_eq!(nearest.told, Told::default());
        assert_eq!(nearest.distances, [0, CLOSED, CLOSED - 1]);
        for far in [closed, closed + 1, 1 << 40] {
            let refused = listed(&[None, Some(7), Some(far), Some(closed)]);
            assert_eq!((refused.told.number, refused.told.place), (16, 2));
            assert_eq!(refused.distances, [CLOSED; 4]);
        }
    }
}
