//! Everything that a call can be handed, what it has to leave of it, and what it does leave.

use crate::guarded::Guarded;
use crate::subject::{run, Subject};
use crate::Told;
use naive::calls::{self, Costs, Roadmap, Rows};
use naive::roads::Roads;
use naive::sweeps::Sweep;
use slices::Way;
use std::fmt;

/// The seven calls.
#[derive(Clone, Copy, Debug, PartialEq, Eq)]
pub enum Call {
    /// Build.
    Build,
    /// Customise.
    Customise,
    /// Change.
    Change,
    /// Distance.
    Distance,
    /// Route.
    Route,
    /// One of the two sweeps.
    Sweep(Way),
}

/// All of them. Each may be run on what those before it leave.
pub const CALLS: [Call; 7] = [
    Call::Build,
    Call::Customise,
    Call::Distance,
    Call::Route,
    Call::Sweep(Way::From),
    Call::Sweep(Way::To),
    Call::Change,
];

impl Call {
    /// Its name in tables.
    pub fn name(self) -> &'static str {
        match self {
            Call::Build => "build",
            Call::Customise => "customise",
            Call::Change => "change",
            Call::Distance => "distance",
            Call::Route => "route",
            Call::Sweep(Way::From) => "sweep_from",
            Call::Sweep(Way::To) => "sweep_to",
        }
    }
}

/// Every list and number that some call gets.
#[derive(Clone, Debug, Default, PartialEq, Eq)]
pub struct Lists {
    /// The arcs' tails.
    pub tails: Vec<u32>,
    /// The arcs' heads.
    pub heads: Vec<u32>,
    /// The arcs' costs.
    pub costs: Vec<u32>,
    /// The order.
    pub order: Vec<u32>,
    /// The rank list.
    pub rank: Vec<u32>,
    /// Where each row starts.
    pub first: Vec<u32>,
    /// The rows.
    pub row_heads: Vec<u32>,
    /// The up costs.
    pub up: Vec<u32>,
    /// The down costs.
    pub down: Vec<u32>,
    /// The route list.
    pub route: Vec<u32>,
    /// The distance list.
    pub distances: Vec<u32>,
    /// The start.
    pub from: u32,
    /// The target.
    pub to: u32,
    /// The arc that changes.
    pub arc: u32,
    /// Its new cost.
    pub cost: u32,
}

/// How many lists there are.
pub const LISTS: usize = 11;

/// Where the route list stands among them.
pub const ROUTE: usize = 9;

/// Where the distance list stands among them.
pub const DISTANCES: usize = 10;

/// The lists' names, in the sequence of [`Lists::all`].
pub const NAMES: [&str; LISTS] = [
    "tails",
    "heads",
    "costs",
    "order",
    "rank",
    "first",
    "row heads",
    "up",
    "down",
    "route",
    "distances",
];

impl Lists {
    /// All lists.
    pub fn all(&self) -> [&Vec<u32>; LISTS] {
        [
            &self.tails,
            &self.heads,
            &self.costs,
            &self.order,
            &self.rank,
            &self.first,
            &self.row_heads,
            &self.up,
            &self.down,
            &self.route,
            &self.distances,
        ]
    }

    /// All lists, to be written.
    pub fn all_mut(&mut self) -> [&mut Vec<u32>; LISTS] {
        [
            &mut self.tails,
            &mut self.heads,
            &mut self.costs,
            &mut self.order,
            &mut self.rank,
            &mut self.first,
            &mut self.row_heads,
            &mut self.up,
            &mut self.down,
            &mut self.route,
            &mut self.distances,
        ]
    }

    /// All lists as slices, as a call gets them.
    #[inline]
    pub fn slices(&mut self) -> [&mut [u32]; LISTS] {
        self.all_mut().map(Vec::as_mut_slice)
    }

    /// The roads and the order, for the naive programs.
    pub fn map(&self) -> Roadmap<'_> {
        Roadmap {
            tails: &self.tails,
            heads: &self.heads,
            costs: &self.costs,
            order: &self.order,
        }
    }

    /// The graph, for the naive programs.
    pub fn rows(&self) -> Rows<'_> {
        Rows {
            rank: &self.rank,
            first: &self.first,
            row_heads: &self.row_heads,
        }
    }

    /// The costs on the graph, for the naive programs.
    pub fn held(&self) -> Costs<'_> {
        Costs {
            up: &self.up,
            down: &self.down,
        }
    }

    /// The open roads, for the naive programs.
    pub fn roads(&self) -> Roads {
        Roads::of(&self.tails, &self.heads, &self.costs)
    }

    /// The two numbers that a call gets: the arc and its new cost, or the start and the target.
    pub fn numbers(&self, call: Call) -> (u32, u32) {
        match call {
            Call::Change => (self.arc, self.cost),
            _ => (self.from, self.to),
        }
    }

    /// A sweep's question, for the naive programs.
    pub fn sweep(&self, way: Way) -> Sweep {
        match way {
            Way::From => Sweep::From(self.from),
            Way::To => Sweep::To(self.to),
        }
    }
}

impl fmt::Display for Lists {
    fn fmt(&self, to: &mut fmt::Formatter) -> fmt::Result {
        for (name, list) in NAMES.iter().zip(self.all()) {
            writeln!(to, "  {name} ({}): {}", list.len(), shown(list))?;
        }
        writeln!(to, "  from {} to {}", self.from, self.to)?;
        let cost = shown_number(self.cost);
        write!(to, "  arc {} to get the cost {cost}", self.arc)
    }
}

/// A list in one line, cut where it is long.
pub fn shown(list: &[u32]) -> String {
    let mut words: Vec<String> = list
        .iter()
        .take(80)
        .map(|&word| shown_number(word))
        .collect();
    if list.len() > 80 {
        words.push("..".to_string());
    }
    words.join(" ")
}

fn shown_number(word: u32) -> String {
    match word {
        u32::MAX => "CLOSED".to_string(),
        word => word.to_string(),
    }
}

/// What stands in a list that a call has to write, before the call: no two places alike.
pub fn stale(length: usize) -> Vec<u32> {
    (0..length as u32).map(|at| 70_000 + at).collect()
}

/// What a call tells and leaves.
#[derive(Clone, Debug, PartialEq, Eq)]
pub struct Outcome {
    /// The numbers told.
    pub told: Told,
    /// All lists afterwards.
    pub left: Lists,
}

/// What a call has to tell and to leave, by the naive programs.
pub fn expected(call: Call, lists: &Lists) -> Outcome {
    let mut left = lists.clone();
    let (order, rows, held) = (&lists.order, lists.rows(), lists.held());
    let told = match call {
        Call::Build => {
            let leaves = calls::build(&lists.tails, &lists.heads, order, rows);
            left.rank = leaves.rank;
            left.first = leaves.first;
            left.row_heads = leaves.row_heads;
            leaves.told
        }
        Call::Customise => {
            let leaves = calls::customise(lists.map(), rows, held);
            left.up = leaves.up;
            left.down = leaves.down;
            leaves.told
        }
        Call::Change => {
            let leaves = calls::change(lists.map(), rows, held, lists.arc, lists.cost);
            left.costs = leaves.costs;
            left.up = leaves.up;
            left.down = leaves.down;
            leaves.told
        }
        Call::Distance => calls::distance(order, rows, held, lists.from, lists.to),
        Call::Route => {
            let (map, from, to) = (lists.map(), lists.from, lists.to);
            let leaves = calls::route(map, rows, held, from, to, &lists.route);
            left.route = leaves.route;
            leaves.told
        }
        Call::Sweep(way) => {
            let leaves = calls::sweep(order, rows, held, lists.sweep(way), &lists.distances);
            left.distances = leaves.distances;
            leaves.told
        }
    };
    Outcome { told, left }
}

/// Lists as a call gets them: guarded.
pub struct Lent {
    lists: [Guarded; LISTS],
}

impl Lent {
    /// Copies of lists.
    pub fn new(lists: &Lists) -> Lent {
        Lent {
            lists: lists.all().map(|list| Guarded::new(list)),
        }
    }

    /// Puts another list in the place of one.
    pub fn replace(&mut self, at: usize, list: &[u32]) {
        self.lists[at] = Guarded::new(list);
    }

    /// Runs a call on the lists and on two numbers: from and to, or an arc and its new cost.
    pub fn call(&mut self, subject: &dyn Subject, call: Call, numbers: (u32, u32)) -> Told {
        let lists = self.lists.each_mut().map(Guarded::list_mut);
        run(subject, call, lists, numbers)
    }

    /// What a list now holds.
    pub fn list(&self, at: usize) -> &[u32] {
        self.lists[at].list()
    }

    /// Whether a list's guards hold.
    pub fn holds(&mut self, at: usize) -> bool {
        self.lists[at].holds()
    }

    /// The first list that a call has touched though it had no leave to, if any: outside it, or one lent for reading.
    pub fn trespass(&mut self, call: Call) -> Option<String> {
        let writable: &[usize] = match call {
            Call::Build => &[4, 5, 6],
            Call::Customise => &[7, 8],
            Call::Change => &[2, 7, 8],
            Call::Distance => &[],
            Call::Route => &[ROUTE],
            Call::Sweep(_) => &[DISTANCES],
        };
        for (at, list) in self.lists.iter_mut().enumerate() {
            if !list.holds() {
                return Some(format!("wrote outside its list {}", NAMES[at]));
            }
            if !writable.contains(&at) && !list.untouched() {
                return Some(format!(
                    "wrote the list {}, which is lent for reading",
                    NAMES[at]
                ));
            }
        }
        None
    }

    /// What the lists now hold, with the numbers of others.
    pub fn into_lists(self, numbers: &Lists) -> Lists {
        let lists = self.lists.map(|list| list.list().to_vec());
        let [tails, heads, costs, order, rank, first, row_heads, up, down, route, distances] =
            lists;
        Lists {
            tails,
            heads,
            costs,
            order,
            rank,
            first,
            row_heads,
            up,
            down,
            route,
            distances,
            from: numbers.from,
            to: numbers.to,
            arc: numbers.arc,
            cost: numbers.cost,
        }
    }
}

/// Holds a subject's call to what is expected of it.
pub fn compare(
    subject: &dyn Subject,
    call: Call,
    lists: &Lists,
    expected: &Outcome,
) -> Result<(), String> {
    let mut lent = Lent::new(lists);
    let told = lent.call(subject, call, lists.numbers(call));
    let name = subject.name();
    if let Some(trespass) = lent.trespass(call) {
        return Err(format!("{name}: {call:?} {trespass}"));
    }
    let left = lent.into_lists(lists);
    if told != expected.told {
        return Err(format!(
            "{name}: {call:?} told {told:?}, expected {:?}",
            expected.told
        ));
    }
    for (at, (got, want)) in left.all().iter().zip(expected.left.all()).enumerate() {
        if *got != want {
            return Err(format!(
                "{name}: {call:?} told {told:?} and left in {}:\n  got      {}\n  expected {}",
                NAMES[at],
                shown(got),
                shown(want)
            ));
        }
    }
    Ok(())
}
