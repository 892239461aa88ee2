//! A case: a net with an order, and all that is to be tried on it.

use naive::customised::customised;
use naive::graph::Graph;
use naive::roads::Roads;
use nets::county::{self, Character};
use nets::source::Source;
use nets::{order, Net, CLOSED};
use std::fmt;

/// One entry of the up or the down list, set to something else after customising.
#[derive(Clone, Copy, Debug, PartialEq, Eq)]
pub struct Damage {
    /// In the up list, else in the down list.
    pub upward: bool,
    /// The place, counted round past E.
    pub place: usize,
    /// The new cost.
    pub cost: u32,
}

/// One arc that gets another cost.
#[derive(Clone, Copy, Debug, PartialEq, Eq)]
pub struct Change {
    /// The arc.
    pub arc: usize,
    /// Its new cost.
    pub cost: u32,
}

/// A net, and what is to be tried on it.
#[derive(Clone, Debug, PartialEq, Eq)]
pub struct Case {
    /// The number of junctions.
    pub n: usize,
    /// The arcs' tails.
    pub tails: Vec<u32>,
    /// The arcs' heads.
    pub heads: Vec<u32>,
    /// The arcs' costs.
    pub costs: Vec<u32>,
    /// The order.
    pub order: Vec<u32>,
    /// Pairs of junctions that the hierarchy joins besides.
    pub besides: Vec<(u32, u32)>,
    /// The arcs' costs when routes are asked again, with nothing redone.
    pub later: Vec<u32>,
    /// What happens to the customised costs.
    pub damage: Vec<Damage>,
    /// Arcs that change one after the other.
    pub changes: Vec<Change>,
    /// Spare places in the rooms for heads, up, down and the route.
    pub spare: [usize; 4],
    /// Where the choice of pairs and rooms comes from.
    pub seed: u64,
}

impl Case {
    /// A case on a net, with nothing but the net.
    pub fn on(net: &Net, order: Vec<u32>) -> Case {
        Case {
            n: net.n,
            tails: net.tails.clone(),
            heads: net.heads.clone(),
            costs: net.costs.clone(),
            order,
            besides: Vec::new(),
            later: net.costs.clone(),
            damage: Vec::new(),
            changes: Vec::new(),
            spare: [1, 1, 2, 1],
            seed: 1,
        }
    }

    /// Has some arcs change, one after the other, as the seed says. Often one that has changed before.
    pub fn change_some(&mut self, count: usize) {
        let mut source = Source::nth(self.seed, 1);
        let mut costs = self.costs.clone();
        self.changes.clear();
        if costs.is_empty() {
            return;
        }
        for _ in 0..count {
            let arc = match self.changes.is_empty() || source.percent(70) {
                true => source.below(costs.len()),
                false => source.pick(&self.changes).arc,
            };
            costs[arc] = new_cost(self.costs[arc], costs[arc], &mut source);
            let cost = costs[arc];
            self.changes.push(Change { arc, cost });
        }
    }

    /// The graph that the hierarchy has.
    pub fn graph(&self) -> Graph {
        let (tails, heads) = self.joining();
        Graph::by_the_game(&self.order, &tails, &heads)
    }

    /// The arcs that the hierarchy is built from.
    pub fn joining(&self) -> (Vec<u32>, Vec<u32>) {
        let (mut tails, mut heads) = (self.tails.clone(), self.heads.clone());
        for &(a, b) in &self.besides {
            tails.push(a);
            heads.push(b);
        }
        (tails, heads)
    }
}

impl fmt::Display for Case {
    fn fmt(&self, to: &mut fmt::Formatter) -> fmt::Result {
        writeln!(to, "  {} junctions, order {:?}", self.n, self.order)?;
        for arc in 0..self.tails.len().min(60) {
            let (cost, later) = (shown(self.costs[arc]), shown(self.later[arc]));
            write!(
                to,
                "  arc {arc}: {} to {}, {cost}",
                self.tails[arc], self.heads[arc]
            )?;
            match cost == later {
                true => writeln!(to)?,
                false => writeln!(to, ", later {later}")?,
            }
        }
        if self.tails.len() > 60 {
            writeln!(to, "  .. {} arcs", self.tails.len())?;
        }
        for (a, b) in &self.besides {
            writeln!(to, "  the hierarchy joins {a} and {b} besides")?;
        }
        for damage in &self.damage {
            let list = if damage.upward { "up" } else { "down" };
            let (place, cost) = (damage.place, shown(damage.cost));
            writeln!(to, "  damage: {list} at place {place} becomes {cost}")?;
        }
        for change in &self.changes {
            let (arc, cost) = (change.arc, shown(change.cost));
            writeln!(to, "  change: arc {arc} gets {cost}")?;
        }
        let [heads, up, down, route] = self.spare;
        write!(
            to,
            "  spare places: heads {heads}, up {up}, down {down}, route {route}"
        )
    }
}

fn shown(cost: u32) -> String {
    match cost {
        CLOSED => "CLOSED".to_string(),
        cost => cost.to_string(),
    }
}

/// A small case of any kind.
pub fn small(source: &mut Source) -> Case {
    let n = match source.below(20) {
        0..=6 => source.between(1, 6),
        7..=16 => source.between(5, 20),
        _ => source.between(15, 60),
    };
    let mut net = any_net(n, source);
    set_costs(&mut net, source);
    repeat_some(&mut net, source);
    finish(net, source)
}

/// A larger case, with an order that keeps the graph thin.
pub fn large(n: usize, source: &mut Source) -> Case {
    let character = Character {
        missing: source.between(5, 30),
        one_way: source.between(0, 40),
        twice: source.between(0, 8),
        closed: source.between(0, 6),
    };
    let net = county::county(n, character, source);
    let order = order::dissection(&net.east, &net.north, &net.tails, &net.heads);
    let mut case = Case::on(&net, order);
    add_trials(&mut case, source);
    case
}

/// Roads of many shapes.
fn any_net(n: usize, source: &mut Source) -> Net {
    let mut net = Net {
        n,
        ..Net::default()
    };
    let last = n as u32 - 1;
    match source.below(8) {
        // a path, a ring, a star, two stars
        0 => (0..last).for_each(|at| both_ways(&mut net, at, at + 1, source)),
        1 => (0..=last).for_each(|at| both_ways(&mut net, at, (at + 1) % (last + 1), source)),
        2 => (1..=last).for_each(|at| both_ways(&mut net, 0, at, source)),
        3 => (2..=last).for_each(|at| both_ways(&mut net, at % 2, at, source)),
        // a tree
        4 => (1..=last).for_each(|at| {
            let parent = source.below(at as usize) as u32;
            both_ways(&mut net, parent, at, source);
        }),
        // a grid
        5 => net = county::county(n, county::USUAL, source),
        // all joined
        6 if n <= 12 => {
            for a in 0..=last {
                (a + 1..=last).for_each(|b| both_ways(&mut net, a, b, source));
            }
        }
        // anything, with equal ends and parts of their own
        _ => {}
    }
    let more = source.pick(&[0, 0, n / 4, n / 2, n, 2 * n, 3 * n]);
    for _ in 0..more {
        let (a, b) = (source.below(n) as u32, source.below(n) as u32);
        net.arc(a, b, 1);
    }
    if source.percent(30) {
        let mut arcs: Vec<(u32, u32)> = net.tails.drain(..).zip(net.heads.drain(..)).collect();
        source.shuffle(&mut arcs);
        (net.tails, net.heads) = arcs.into_iter().unzip();
    }
    net
}

/// A road both ways, or one way.
fn both_ways(net: &mut Net, a: u32, b: u32, source: &mut Source) {
    let ways = source.below(5);
    if ways != 0 {
        net.arc(a, b, 1);
    }
    if ways != 1 {
        net.arc(b, a, 1);
    }
}

fn any_cost(style: usize, source: &mut Source) -> u32 {
    match style {
        0 => 1,
        1 => source.between(1, 3) as u32,
        2 => source.between(1, 20) as u32,
        3 => source.between(1, 500_000) as u32,
        _ => source.between(499_998, 500_000) as u32,
    }
}

/// Another cost for an arc, by what it was at first and what it is now: closed, opened, a little more or less, anything,
/// or the same again.
fn new_cost(first: u32, now: u32, source: &mut Source) -> u32 {
    match source.below(8) {
        0 | 1 => CLOSED,
        2 | 3 => first,
        4 => (now % CLOSED).saturating_add(1).min(500_000),
        5 => (now % CLOSED).saturating_sub(1).clamp(1, 500_000),
        6 => source.pick(&[1, 2, 3, 500_000, now]),
        _ => source.between(1, 20) as u32,
    }
}

fn set_costs(net: &mut Net, source: &mut Source) {
    let style = source.below(5);
    let closed = source.pick(&[0, 0, 3, 10, 30, 80]);
    for cost in &mut net.costs {
        *cost = match source.percent(closed) {
            true => CLOSED,
            false => any_cost(style, source),
        };
    }
}

/// Later listings of some arcs, open and closed.
fn repeat_some(net: &mut Net, source: &mut Source) {
    if net.tails.is_empty() || source.percent(40) {
        return;
    }
    for _ in 0..source.between(1, 4) {
        let arc = source.below(net.tails.len());
        let cost = match source.below(4) {
            0 => CLOSED,
            1 => net.costs[arc],
            _ => source.between(1, 20) as u32,
        };
        net.arc(net.tails[arc], net.heads[arc], cost);
    }
}

fn finish(net: Net, source: &mut Source) -> Case {
    let n = net.n;
    let order = match source.below(8) {
        0 => order::by_number(n),
        1 => order::reversed(n),
        2 => order::by_arcs(n, &net.tails, &net.heads, true),
        3 => order::by_arcs(n, &net.tails, &net.heads, false),
        4 if !net.east.is_empty() => {
            order::dissection(&net.east, &net.north, &net.tails, &net.heads)
        }
        _ => order::shuffled(n, source),
    };
    let mut case = Case::on(&net, order);
    add_trials(&mut case, source);
    case
}

/// Rooms, edges besides, later costs and damage.
fn add_trials(case: &mut Case, source: &mut Source) {
    case.seed = source.any();
    case.spare = [(); 4].map(|()| source.pick(&[0, 0, 1, 2, 7]));
    if source.percent(35) {
        for _ in 0..source.between(1, 3) {
            let (a, b) = (source.below(case.n) as u32, source.below(case.n) as u32);
            case.besides.push((a, b));
        }
    }
    let often = source.pick(&[0, 5, 20, 50]);
    for cost in &mut case.later {
        if source.percent(often) {
            *cost = match source.below(5) {
                0 | 1 => CLOSED,
                2 => (*cost % CLOSED).saturating_add(1).min(500_000),
                3 => (*cost % CLOSED).saturating_sub(1).clamp(1, 500_000),
                _ => source.between(1, 20) as u32,
            };
        }
    }
    if source.percent(70) {
        add_damage(case, source);
    }
    let count = if case.n <= 60 { 10 } else { 3 };
    case.change_some(count);
}

fn add_damage(case: &mut Case, source: &mut Source) {
    let graph = case.graph();
    let edges = graph.edges();
    if edges == 0 {
        return;
    }
    for _ in 0..source.between(1, 6) {
        let cost = source.pick(&[
            0,
            0,
            1,
            2,
            3,
            4,
            7,
            500_000,
            1 << 31,
            CLOSED - 2,
            CLOSED - 1,
            CLOSED,
        ]);
        case.damage.push(Damage {
            upward: source.percent(50),
            place: source.below(edges),
            cost,
        });
    }
    for _ in 0..source.below(3) {
        damage_triangle(case, &graph, source);
    }
    if case.n <= 60 && source.percent(40) {
        case.damage.clear();
        damage_below_true_z(case, &graph, source);
    }
}

/// Below the z over which an upward edge truly opens, sets the costs of another so that they would fit if sums were cut
/// to 32 bits.
fn damage_below_true_z(case: &mut Case, graph: &Graph, source: &mut Source) {
    let roads = Roads::of(&case.tails, &case.heads, &case.costs);
    let (up, down) = customised(graph, &case.order, &roads);
    let place = |a, b| graph.place(a, b).expect("joined");
    let mut choices = Vec::new();
    for x in 0..case.n {
        for y in graph.row(x).into_iter().map(|y| y as usize) {
            let cost = up[place(x, y)];
            let below: Vec<usize> = (0..x)
                .filter(|&z| graph.joined(z, x) && graph.joined(z, y))
                .collect();
            let opens = |&z: &usize| {
                let (to_z, from_z) = (down[place(z, x)], up[place(z, y)]);
                to_z != CLOSED && from_z != CLOSED && to_z + from_z == cost
            };
            let arc = roads.get(case.order[x], case.order[y]);
            let truly = below.iter().position(opens);
            if arc.is_none_or(|road| road.cost != cost) && truly.is_some_and(|at| at > 0) {
                choices.push((below[0], x, y, cost));
            }
        }
    }
    if choices.is_empty() {
        return;
    }
    let (z, x, y, cost) = source.pick(&choices);
    for (upward, place, cost) in [
        (false, place(z, x), CLOSED - 1),
        (true, place(z, y), cost + 2),
    ] {
        case.damage.push(Damage {
            upward,
            place,
            cost,
        });
    }
}

/// Sets the costs of a triangle so that its lowest corner fits, or would fit if sums were cut to 32 bits.
fn damage_triangle(case: &mut Case, graph: &Graph, source: &mut Source) {
    let z = source.below(case.n);
    let row = graph.row(z);
    if row.len() < 2 {
        return;
    }
    let i = source.below(row.len() - 1);
    let (x, y) = (
        row[i] as usize,
        row[source.between(i + 1, row.len() - 1)] as usize,
    );
    let place = |a, b| graph.place(a, b).expect("a triangle");
    let small = source.between(0, 9) as u32;
    let (to_z, from_z, sum) = match source.below(3) {
        0 => (3, small, 3 + small),
        // 2^32 + small, cut to 32 bits
        1 => (CLOSED - 1, small + 2, small),
        // the greatest finite cost, made of two finite costs
        _ => (CLOSED - 1 - small, small, CLOSED - 1),
    };
    for (upward, place, cost) in [
        (false, place(z, x), to_z),
        (true, place(z, y), from_z),
        (true, place(x, y), sum),
    ] {
        case.damage.push(Damage {
            upward,
            place,
            cost,
        });
    }
}

/// A net as it is, and again after some closures with nothing redone.
pub fn closures(net: &Net, order: Vec<u32>, source: &mut Source) -> Case {
    let mut case = Case::on(net, order);
    case.seed = source.any();
    for cost in &mut case.later {
        if source.percent(2) {
            *cost = CLOSED;
        }
    }
    case.change_some(6);
    case
}
