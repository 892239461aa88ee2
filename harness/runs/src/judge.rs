//! Judges a case: every call on it, by both implementations, against the naive programs; and those against Dijkstra and
//! Floyd-Warshall.

use crate::changes;
use crate::lists::{compare, expected, shown, stale, Call, Lent, Lists, Outcome, ROUTE};
use crate::subject::{Subject, SUBJECTS};
use crate::sweeps;
use crate::tally::Tally;
use crate::Told;
use cases::Case;
use naive::calls::{Asked, Drive};
use naive::roads::{in_force, Roads};
use naive::unpacking::Met;
use naive::walks::{floyd_warshall, Dijkstra, Leaving};
use nets::source::Source;

/// Up to so many junctions every pair is asked for.
pub const EVERY_PAIR: usize = 60;

/// How many pairs are asked for otherwise: some of a larger net, few of a very large one.
pub fn usual_pairs(n: usize) -> usize {
    if n > 2_000 {
        10
    } else {
        40
    }
}

/// Runs everything that a case asks for. An error says what went wrong.
pub fn judge(case: &Case) -> Result<Tally, String> {
    judge_asking(case, usual_pairs(case.n))
}

/// The same, with so many pairs.
pub fn judge_asking(case: &Case, pairs: usize) -> Result<Tally, String> {
    let mut tally = Tally {
        nets: 1,
        ..Tally::default()
    };
    let mut lists = build(case, &mut tally)?;
    lists.tails = case.tails.clone();
    lists.heads = case.heads.clone();
    lists.costs = case.costs.clone();
    customise(case, &mut lists, &mut tally)?;
    let customised = lists.clone();
    question(case, pairs, &mut lists, &mut tally)?;
    if case.later != case.costs && case.n <= EVERY_PAIR {
        // roads shut and roads open again, over lists that hold the costs of before
        compare_all(Call::Customise, &lists, &mut tally)?;
    }
    if !case.changes.is_empty() {
        change(case, customised, &mut tally)?;
    }
    Ok(tally)
}

/// The changes, one after the other: on costs as customised, then questions; on damaged shortcut costs; on costs that
/// nobody customised. What stands past E is to be kept.
fn change(case: &Case, mut lists: Lists, tally: &mut Tally) -> Result<(), String> {
    let edges = lists.first[case.n] as usize;
    for list in [&mut lists.up, &mut lists.down] {
        let length = list.len();
        list[edges..].copy_from_slice(&stale(length)[edges..]);
    }
    let after = changes::hold_customised(&lists, &case.changes, tally)
        .map_err(|error| format!("costs as customised, then changes: {error}"))?;
    let mut source = Source::nth(case.seed, 2);
    let pairs = some_pairs(case.n, 8, &mut source);
    let mut questions = Questions {
        stage: "after changes",
        spare: case.spare[3],
        source: &mut source,
        tally,
    };
    questions.ask(&after, &pairs, Some(&mut Truth::of(&after)))?;
    questions.sweep(&after, &dairies(case.n, &pairs)[..1], Some(&after.roads()))?;
    if !case.damage.is_empty() {
        let mut damaged = lists.clone();
        inflict(case, &mut damaged);
        changes::hold(&damaged, &case.changes, tally)
            .map_err(|error| format!("shortcut costs damaged, then changes: {error}"))?;
    }
    changes::make_up(&mut lists, &mut source);
    changes::hold(&lists, &case.changes, tally)
        .map_err(|error| format!("made-up shortcut costs, then changes: {error}"))
}

/// All questions: on costs as customised, on later arc costs, on damaged shortcut costs. Leaves the later costs.
fn question(case: &Case, pairs: usize, lists: &mut Lists, tally: &mut Tally) -> Result<(), String> {
    let mut source = Source::new(case.seed);
    let pairs = some_pairs(case.n, pairs, &mut source);
    let dairies = dairies(case.n, &pairs);
    let mut truth = Truth::of(lists);
    let mut questions = Questions {
        stage: "costs as customised",
        spare: case.spare[3],
        source: &mut source,
        tally,
    };
    if case.n <= EVERY_PAIR {
        let every: Vec<(u32, u32)> = every_pair(case.n).collect();
        questions.ask(lists, &every, Some(&mut truth))?;
    } else {
        questions.ask(lists, &pairs, Some(&mut truth))?;
    }
    questions.sweep(lists, &dairies, Some(&lists.roads()))?;
    if case.later != case.costs {
        questions.stage = "arc costs changed, nothing redone";
        lists.costs = case.later.clone();
        questions.ask(lists, &pairs, None)?;
    }
    if !case.damage.is_empty() {
        questions.stage = "shortcut costs damaged";
        let mut damaged = lists.clone();
        damaged.costs = case.costs.clone();
        inflict(case, &mut damaged);
        questions.ask(&damaged, &pairs, None)?;
        questions.sweep(&damaged, &dairies, None)?;
    }
    Ok(())
}

fn every_pair(n: usize) -> impl Iterator<Item = (u32, u32)> {
    let n = n as u32;
    (0..n).flat_map(move |from| (0..n).map(move |to| (from, to)))
}

/// So many pairs, or every pair of a net that has no more.
fn some_pairs(n: usize, count: usize, source: &mut Source) -> Vec<(u32, u32)> {
    if n * n <= count {
        return every_pair(n).collect();
    }
    (0..count)
        .map(|_| (source.below(n) as u32, source.below(n) as u32))
        .collect()
}

/// Every junction of a small net, few of a larger one.
fn dairies(n: usize, pairs: &[(u32, u32)]) -> Vec<u32> {
    if n <= EVERY_PAIR {
        return (0..n as u32).collect();
    }
    pairs.iter().take(3).map(|&(from, _)| from).collect()
}

/// Build, in rooms of several lengths. Hands on the lists with the room that the case asks for.
fn build(case: &Case, tally: &mut Tally) -> Result<Lists, String> {
    let (tails, heads) = case.joining();
    let edges = case.graph().edges();
    let n = case.n;
    let with_rooms = |rank: usize, first: usize, row_heads: usize| Lists {
        tails: tails.clone(),
        heads: heads.clone(),
        order: case.order.clone(),
        rank: stale(rank),
        first: stale(first),
        row_heads: stale(row_heads),
        ..Lists::default()
    };
    let mut rooms = vec![(n, n + 1, edges + case.spare[0])];
    if edges > 0 {
        rooms.push((n, n + 1, edges - 1));
    }
    if n <= EVERY_PAIR {
        rooms.push((n, n + 1, edges));
        rooms.push((n, n + 1, edges / 2));
        rooms.extend([(n - 1, n + 1, edges), (n + 1, n + 1, edges)]);
        rooms.extend([(n, n, edges), (n, n + 2, edges), (n, n + 1, 0)]);
    }
    let mut built = Lists::default();
    for (at, &(rank, first, row_heads)) in rooms.iter().enumerate() {
        let lists = with_rooms(rank, first, row_heads);
        let outcome = compare_all(Call::Build, &lists, tally)?;
        if at == 0 {
            built = outcome.left;
        }
    }
    Ok(built)
}

/// Customise, in rooms of several lengths. Leaves the lists with the rooms that the case asks for.
fn customise(case: &Case, lists: &mut Lists, tally: &mut Tally) -> Result<(), String> {
    let edges = lists.first[case.n] as usize;
    if edges > 0 {
        for (up, down) in [(edges - 1, edges), (edges, edges - 1), (0, 0)] {
            lists.up = stale(up);
            lists.down = stale(down);
            compare_all(Call::Customise, lists, tally)?;
            compare_all(Call::Distance, lists, tally)?;
        }
    }
    lists.up = stale(edges + case.spare[1]);
    lists.down = stale(edges + case.spare[2]);
    *lists = compare_all(Call::Customise, lists, tally)?.left;
    Ok(())
}

/// Holds both implementations to what is expected.
pub fn compare_all(call: Call, lists: &Lists, tally: &mut Tally) -> Result<Outcome, String> {
    let outcome = expected(call, lists);
    for subject in SUBJECTS {
        compare(subject, call, lists, &outcome)?;
        tally.call(outcome.told);
    }
    Ok(outcome)
}

/// The damage, done.
fn inflict(case: &Case, lists: &mut Lists) {
    let edges = lists.first[case.n] as usize;
    if edges == 0 {
        return;
    }
    for damage in &case.damage {
        let list = if damage.upward {
            &mut lists.up
        } else {
            &mut lists.down
        };
        list[damage.place % edges] = damage.cost;
    }
}

/// The distances by programs that know no shortcuts.
enum Truth {
    Every(usize, Vec<Option<u64>>),
    Asked(Leaving, Dijkstra),
}

impl Truth {
    fn of(lists: &Lists) -> Truth {
        let n = lists.order.len();
        if n <= EVERY_PAIR {
            let far = floyd_warshall(n, &lists.tails, &lists.heads, &lists.costs);
            return Truth::Every(n, far);
        }
        let roads = lists.roads();
        Truth::Asked(Leaving::of(n, &roads), Dijkstra::new(n))
    }

    fn distance(&mut self, from: u32, to: u32) -> Option<u64> {
        match self {
            Truth::Every(n, far) => far[from as usize * *n + to as usize],
            Truth::Asked(net, dijkstra) => dijkstra.distance(net, from, to),
        }
    }
}

/// Questions to lists that every check accepts.
struct Questions<'a> {
    stage: &'static str,
    spare: usize,
    source: &'a mut Source,
    tally: &'a mut Tally,
}

impl Questions<'_> {
    /// Asks for distance and route of each pair. With costs as customised, `truth` is told.
    fn ask(
        &mut self,
        lists: &Lists,
        pairs: &[(u32, u32)],
        mut truth: Option<&mut Truth>,
    ) -> Result<(), String> {
        let roads = lists.roads();
        let mut asked = Asked::of(&lists.order, lists.rows(), lists.held());
        let mut lent = SUBJECTS.map(|_| Lent::new(lists));
        let most = lists.order.len() + 40;
        for &(from, to) in pairs {
            self.tally.pairs += 1;
            let far = asked.distance(from, to);
            let drive = asked.drive(&roads, from, to, most);
            if let Some(truth) = &mut truth {
                self.agree(lists, &roads, far, truth.distance(from, to), &drive)
                    .map_err(|error| format!("{from} to {to}, {}: {error}", self.stage))?;
            }
            let rooms = self.rooms(&drive, most);
            for (subject, lent) in SUBJECTS.iter().zip(&mut lent) {
                self.hold(*subject, lent, (from, to), far, &drive, &rooms)?;
            }
        }
        for (subject, lent) in SUBJECTS.iter().zip(&mut lent) {
            if let Some(trespass) = lent.trespass(Call::Route) {
                return Err(format!("{}: distance or route {trespass}", subject.name()));
            }
        }
        Ok(())
    }

    /// Asks for both sweeps of each dairy. With costs as customised, the roads are told.
    fn sweep(
        &mut self,
        lists: &Lists,
        dairies: &[u32],
        roads: Option<&Roads>,
    ) -> Result<(), String> {
        sweeps::hold(lists, dairies, roads, self.tally)
            .map_err(|error| format!("{}: {error}", self.stage))
    }

    /// Rooms for a route: enough, just enough, too short.
    fn rooms(&mut self, drive: &Drive, most: usize) -> Vec<usize> {
        let arcs = drive.arcs();
        let mut rooms = vec![arcs + self.spare];
        if arcs > most {
            rooms = vec![most];
        }
        match drive {
            Drive::Nowhere => rooms.push(self.source.below(3)),
            Drive::Along { .. } if arcs > 0 => {
                let short = arcs.min(most);
                let room = self.source.below(short);
                rooms.push(self.source.pick(&[room, short - 1]));
            }
            Drive::Along { .. } => rooms.push(0),
        }
        rooms
    }

    /// Holds one implementation to the answers expected for one pair.
    fn hold(
        &mut self,
        subject: &dyn Subject,
        lent: &mut Lent,
        (from, to): (u32, u32),
        far: Told,
        drive: &Drive,
        rooms: &[usize],
    ) -> Result<(), String> {
        let name = subject.name();
        let told = lent.call(subject, Call::Distance, (from, to));
        self.tally.call(far);
        if told != far {
            return Err(format!(
                "{name}: distance {from} to {to}, {}: told {told:?}, expected {far:?}",
                self.stage
            ));
        }
        for &room in rooms {
            lent.replace(ROUTE, &stale(room));
            let told = lent.call(subject, Call::Route, (from, to));
            let expected = drive.into_room(room);
            self.tally.call(expected.told);
            if told != expected.told || lent.list(ROUTE) != expected.route {
                return Err(format!(
                    "{name}: route {from} to {to} in a room of {room}, {}:\n  told     {told:?}, route {}\n  expected {:?}, \
                     route {}",
                    self.stage,
                    shown(lent.list(ROUTE)),
                    expected.told,
                    shown(&expected.route)
                ));
            }
            if !lent.holds(ROUTE) {
                return Err(format!("{name}: route wrote outside its route list"));
            }
        }
        Ok(())
    }

    /// Holds the naive programs to the true distance: the route drives open roads end to end, adds up, and passes no
    /// junction twice.
    fn agree(
        &mut self,
        lists: &Lists,
        roads: &Roads,
        told: Told,
        truth: Option<u64>,
        drive: &Drive,
    ) -> Result<(), String> {
        if told.distance != truth.unwrap_or(u64::MAX) {
            return Err(format!(
                "the shortcuts say {told:?}, the roads {truth:?}; one of the judges is wrong"
            ));
        }
        let Drive::Along { distance, met } = drive else {
            return Ok(());
        };
        self.tally.driven += 1;
        let mut sum = 0;
        let mut passed = Vec::new();
        for met in met {
            let Met::Arc(arc) = *met else {
                return Err("a piece fits nothing; one of the judges is wrong".to_string());
            };
            let arc = arc as usize;
            let (tail, head) = (lists.tails[arc], lists.heads[arc]);
            let mut open = roads
                .get(tail, head)
                .is_some_and(|road| road.arc == arc as u32);
            if lists.order.len() <= EVERY_PAIR {
                open &= in_force(&lists.tails, &lists.heads, &lists.costs, arc);
            }
            if !open || passed.last().is_some_and(|&last| last != tail) || passed.contains(&head) {
                return Err(format!(
                    "arc {arc} can't follow {passed:?}; one of the judges is wrong"
                ));
            }
            if passed.is_empty() {
                passed.push(tail);
            }
            passed.push(head);
            sum += u64::from(lists.costs[arc]);
        }
        if sum != *distance {
            return Err(format!("the route costs {sum}; one of the judges is wrong"));
        }
        Ok(())
    }
}
