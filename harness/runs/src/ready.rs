//! A net with everything worked out, ready to be measured.

use crate::lists::{Call, Lists};
use crate::subject::{run, Library, Plain, Subject};
use crate::{CLOSED, NO_WALK};
use naive::roads::Roads;
use naive::walks::{Dijkstra, Leaving};
use nets::county::{county, USUAL};
use nets::source::Source;
use nets::{order, stored, Net};
use slices::Way;
use std::hint::black_box;
use std::path::Path;

/// Who is measured.
#[derive(Clone, Copy, Debug, PartialEq, Eq)]
pub enum Who {
    /// The library.
    Library,
    /// Plain safe Rust.
    Plain,
    /// Dijkstra, from one junction to one, as distance is, or to all, as a sweep is.
    Dijkstra,
    /// The library again, by 64 distance calls in place of a sweep.
    Singly,
}

/// What is measured: a call by someone.
pub type Job = (Call, Who);

/// All that is measured on a net, in this sequence.
pub const JOBS: [Job; 17] = [
    (Call::Build, Who::Library),
    (Call::Build, Who::Plain),
    (Call::Customise, Who::Library),
    (Call::Customise, Who::Plain),
    (Call::Distance, Who::Library),
    (Call::Distance, Who::Plain),
    (Call::Distance, Who::Dijkstra),
    (Call::Route, Who::Library),
    (Call::Route, Who::Plain),
    (Call::Sweep(Way::From), Who::Library),
    (Call::Sweep(Way::From), Who::Plain),
    (Call::Sweep(Way::From), Who::Dijkstra),
    (Call::Sweep(Way::From), Who::Singly),
    (Call::Sweep(Way::To), Who::Library),
    (Call::Sweep(Way::To), Who::Plain),
    (Call::Change, Who::Library),
    (Call::Change, Who::Plain),
];

/// How many pairs are asked for. Their 64 ends are the farms of 64 distance calls.
pub const PAIRS: usize = 32;

/// Of how many of these pairs an end is the dairy of a sweep: the first ones that start where most junctions can be
/// reached from, as Dijkstra is done at once in a dead end.
pub const DAIRIES: usize = 8;

/// How many arcs are closed, and opened again: the last that is open, and others chosen anyhow.
pub const CHANGES: usize = 64;

/// A net, its lists with the graph and the customised costs, and pairs of junctions.
pub struct Ready {
    /// The lists.
    pub lists: Lists,
    /// E.
    pub edges: usize,
    pairs: Vec<(u32, u32)>,
    swept: Vec<(u32, u32)>,
    /// Arcs, and their costs at first.
    changed: Vec<(u32, u32)>,
    leaving: Leaving,
    dijkstra: Dijkstra,
}

impl Ready {
    /// A net by its name: a stored one, or `county N`, `path N` or `star N`, a synthetic one of N junctions.
    pub fn named(folder: &Path, name: &str) -> Result<Ready, String> {
        let Some((kind, n)) = name.split_once(' ') else {
            let (net, order) = stored::read(folder, name)?;
            return Ready::of(&net, order);
        };
        let n: usize = n.parse().map_err(|_| format!("{name} is unknown"))?;
        match kind {
            "county" => {
                let net = county(n, USUAL, &mut Source::new(n as u64));
                let order = order::dissection(&net.east, &net.north, &net.tails, &net.heads);
                Ready::of(&net, order)
            }
            "path" => Ready::of(&path(n), order::by_number(n)),
            "star" => Ready::of(&star(n), order::by_number(n)),
            _ => Err(format!("{name} is unknown")),
        }
    }

    fn of(net: &Net, order: Vec<u32>) -> Result<Ready, String> {
        let n = net.n;
        let mut lists = Lists {
            tails: net.tails.clone(),
            heads: net.heads.clone(),
            costs: net.costs.clone(),
            order,
            rank: vec![0; n],
            first: vec![0; n + 1],
            row_heads: vec![0; n * (n - 1) / 2],
            ..Lists::default()
        };
        let told = run(&Plain, Call::Build, lists.slices(), (0, 0));
        let edges = told.edges as usize;
        lists.row_heads.truncate(edges);
        lists.row_heads.shrink_to_fit();
        lists.up = vec![CLOSED; edges];
        lists.down = vec![CLOSED; edges];
        lists.route = vec![CLOSED; n];
        lists.distances = vec![CLOSED; n];
        let mut source = Source::new(n as u64 + 1);
        let mut any = || source.below(n) as u32;
        let roads = Roads::of(&lists.tails, &lists.heads, &lists.costs);
        let mut ready = Ready {
            edges,
            pairs: (0..PAIRS).map(|_| (any(), any())).collect(),
            swept: Vec::new(),
            changed: Vec::new(),
            leaving: Leaving::of(n, &roads),
            dijkstra: Dijkstra::new(n),
            lists,
        };
        ready.choose_dairies()?;
        ready.choose_arcs(&mut source);
        let told = ready.run((Call::Customise, Who::Plain), 0);
        match told {
            0 => Ok(ready),
            number => Err(format!("the net is refused by {number}")),
        }
    }

    fn choose_dairies(&mut self) -> Result<(), String> {
        for &(from, to) in &self.pairs {
            let far = self.dijkstra.distances(&self.leaving, from);
            let reached = far.iter().filter(|&&far| far != NO_WALK).count();
            if 2 * reached > far.len() && self.swept.len() < DAIRIES {
                self.swept.push((from, to));
            }
        }
        match self.swept.len() {
            DAIRIES => Ok(()),
            few => Err(format!("the net has {few} dairies")),
        }
    }

    fn choose_arcs(&mut self, source: &mut Source) {
        let costs = self.lists.costs.iter();
        let open = (0..)
            .zip(costs.copied())
            .filter(|&(_, cost)| cost != CLOSED);
        let mut open: Vec<(u32, u32)> = open.collect();
        self.changed.extend(open.pop());
        source.shuffle(&mut open);
        self.changed.extend(open.iter().take(CHANGES - 1));
    }

    /// How many calls the runs of a job go through before they repeat.
    pub fn calls(call: Call) -> usize {
        match call {
            Call::Build | Call::Customise => 1,
            Call::Distance | Call::Route => PAIRS,
            Call::Sweep(_) => DAIRIES,
            Call::Change => 2 * CHANGES,
        }
    }

    /// Runs a job once, for one of the pairs, or for an arc that is closed and in the next turn opened. Replies a number
    /// that depends on the work: the pair's distance, where that is what is worked out.
    pub fn run(&mut self, (call, who): Job, turn: usize) -> u64 {
        let pair = self.pair(call, turn);
        match who {
            Who::Library => self.call(&Library, call, pair),
            Who::Plain => self.call(&Plain, call, pair),
            Who::Dijkstra => self.walk(call, pair),
            Who::Singly => {
                let ends: [(u32, u32); PAIRS] = std::array::from_fn(|at| self.pairs[at]);
                let farms = ends.into_iter().flat_map(|(a, b)| [a, b]);
                farms.fold(0, |_, farm| {
                    self.call(&Library, Call::Distance, (pair.0, farm))
                })
            }
        }
    }

    fn pair(&self, call: Call, turn: usize) -> (u32, u32) {
        match call {
            Call::Sweep(_) => self.swept[turn % DAIRIES],
            Call::Change => {
                let (arc, cost) = self.changed[turn / 2 % self.changed.len()];
                (arc, if turn % 2 == 0 { CLOSED } else { cost })
            }
            _ => self.pairs[turn % PAIRS],
        }
    }

    fn call(&mut self, subject: &dyn Subject, call: Call, pair: (u32, u32)) -> u64 {
        let lists = black_box(&mut self.lists);
        let told = run(subject, call, lists.slices(), pair);
        let listed = |farm: u32| match lists.distances[farm as usize] {
            CLOSED => u64::MAX,
            tenths => u64::from(tenths),
        };
        let far = match call {
            Call::Sweep(Way::From) => listed(pair.1),
            Call::Sweep(Way::To) => listed(pair.0),
            Call::Change => told.triangles,
            _ => told.distance,
        };
        u64::from(told.number) + far
    }

    fn walk(&mut self, call: Call, (from, to): (u32, u32)) -> u64 {
        match call {
            Call::Sweep(_) => self.dijkstra.distances(&self.leaving, from)[to as usize],
            _ => {
                let far = self.dijkstra.distance(&self.leaving, from, to);
                far.unwrap_or(u64::MAX)
            }
        }
    }

    /// Whether all who answer a question answer it alike.
    pub fn agrees(&mut self) -> bool {
        let writes = [Call::Build, Call::Customise, Call::Change];
        let mut told = JOBS
            .into_iter()
            .filter(|&(call, who)| !writes.contains(&call) && who != Who::Singly);
        self.changes_agree()
            && told.all(|(call, who)| {
                (0..Ready::calls(call)).all(|turn| {
                    let far = self.walk(Call::Distance, self.pair(call, turn));
                    self.run((call, who), turn) == far
                })
            })
    }
    /// Whether both leave the same of each change, and after each opening the costs of before.
    fn changes_agree(&mut self) -> bool {
        let before = self.lists.clone();
        (0..Ready::calls(Call::Change)).all(|turn| {
            let old = self.lists.clone();
            let library = self.run((Call::Change, Who::Library), turn);
            let left = std::mem::replace(&mut self.lists, old);
            let plain = self.run((Call::Change, Who::Plain), turn);
            library == plain && left == self.lists && (turn % 2 == 0 || left == before)
        })
    }
}

/// A path both ways, whose first junction alone has an arc to the last: ordered by number, every row has the last, and
/// closing that arc changes each.
fn path(n: usize) -> Net {
    let last = n as u32 - 1;
    let mut net = Net {
        n,
        ..Net::default()
    };
    for at in 0..last {
        net.arc(at, at + 1, 30 + at % 7);
        net.arc(at + 1, at, 40 + at % 9);
    }
    net.arc(0, last, 50);
    net
}

/// A star both ways with its centre first: every two junctions are joined, and closing the last arc, from the second
/// junction to the centre, has all edges from there up reconsidered.
fn star(n: usize) -> Net {
    let mut net = Net {
        n,
        ..Net::default()
    };
    for at in (1..n as u32).rev() {
        net.arc(0, at, 30 + at % 7);
        net.arc(at, 0, 40 + at % 9);
    }
    net
}
