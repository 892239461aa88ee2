//! Writes the nets that the crate `nets` is run on, or what that program has to write about them, by the naive
//! programs. The format is told in crates/nets/README.md.

use cases::Case;
use naive::calls::{self, Asked, BuildLeaves, Costs, CustomiseLeaves, Roadmap, Rows};
use naive::roads::Roads;
use naive::walks::{Dijkstra, Leaving};
use naive::{CLOSED, NO_WALK};
use nets::source::Source;
use nets::stored;
use std::fmt::{Display, Write};
use std::process::exit;

const USAGE: &str = "\
store: writes nets, or what the four calls have to leave on them, to standard output

  store input SEED      the nets
  store output SEED     what is told and left on these nets";

/// The most that each list can hold, and the most questions, in the order of a net's first line.
const MOST: [usize; 11] = [
    1_024, 1_024, 1_024, 1_024, 256, 257, 258, 4_096, 4_096, 4_096, 64,
];
const MOST_JUNCTIONS: usize = MOST[4];
const MOST_QUESTIONS: usize = MOST[10];
const MOST_ROOM: usize = 256;

/// What stands in every place of a list before it is lent.
const BEFORE: u32 = 9;

/// How many random nets there are.
const RANDOM: u64 = 60;

fn main() {
    match text() {
        Ok(text) => print!("{text}"),
        Err(error) => {
            eprintln!("{error}\n\n{USAGE}");
            exit(2);
        }
    }
}

fn text() -> Result<String, String> {
    let words: Vec<String> = std::env::args().skip(1).collect();
    let words: Vec<&str> = words.iter().map(String::as_str).collect();
    let (is_input, seed) = match *words {
        ["input", seed] => (true, seed),
        ["output", seed] => (false, seed),
        _ => return Err("tell what to write".to_string()),
    };
    let seed = seed.parse().map_err(|_| format!("{seed} is no number"))?;
    let mut nets = all(seed)?;
    let mut text = String::new();
    if is_input {
        line(&mut text, "", &[nets.len()]);
    }
    for (at, net) in nets.iter_mut().enumerate() {
        let left = Left::on(net);
        net.questions = questions(net, &left)?;
        match is_input {
            true => net.write(&mut text)?,
            false => {
                line(&mut text, "net", &[at + 1]);
                left.write(&mut text, net);
            }
        }
    }
    Ok(text)
}

// ---- the nets

/// The maps, the random nets, some of them with a room too short, and for each fault a net that has it alone and one that
/// has another besides.
fn all(seed: u64) -> Result<Vec<Stored>, String> {
    let mut nets = maps(seed)?;
    for at in 0..RANDOM {
        let mut source = Source::nth(seed, at);
        let mut net = random(&mut source, 400);
        if at % 8 == 0 {
            let fault = source.pick(&[Fault::RowHeadsShort, Fault::UpShort, Fault::DownShort]);
            spoil(&mut net, fault, &mut source);
        }
        nets.push(net);
    }
    for (at, fault) in FAULTS.iter().enumerate() {
        nets.push(faulty(&[*fault], &mut Source::nth(seed, 1_000 + at as u64)));
        let mut source = Source::nth(seed, 2_000 + at as u64);
        let two = [*fault, source.pick(&FAULTS)];
        nets.push(faulty(&two, &mut source));
    }
    Ok(nets)
}

/// A net with the lengths of the lists that are lent, and its questions.
struct Stored {
    tails: Vec<u32>,
    heads: Vec<u32>,
    costs: Vec<u32>,
    later: Vec<u32>,
    order: Vec<u32>,
    /// E, as long as nothing is wrong.
    edges: usize,
    /// The lengths of rank, first, heads of the rows, up and down.
    rooms: [usize; 5],
    questions: Vec<Question>,
    /// An end that each question has in place of its own.
    end: Option<u32>,
    /// Where the choice of questions comes from.
    seed: u64,
}

/// A question to distance and to route.
#[derive(Clone, Copy)]
struct Question {
    is_later: bool,
    from: u32,
    to: u32,
    room: usize,
}

impl Stored {
    /// A case's net, with so many places more than E for heads of the rows, up and down.
    fn of(case: Case, spare: [usize; 3]) -> Stored {
        let edges = case.graph().edges();
        let [heads, up, down] = spare.map(|spare| edges + spare);
        Stored {
            tails: case.tails,
            heads: case.heads,
            costs: case.costs,
            later: case.later,
            order: case.order,
            edges,
            rooms: [case.n, case.n + 1, heads, up, down],
            questions: Vec::new(),
            end: None,
            seed: case.seed,
        }
    }

    /// What the calls get, with the costs or the later ones.
    fn map(&self, is_later: bool) -> Roadmap<'_> {
        Roadmap {
            tails: &self.tails,
            heads: &self.heads,
            costs: if is_later { &self.later } else { &self.costs },
            order: &self.order,
        }
    }

    /// The net as the program reads it.
    fn write(&self, text: &mut String) -> Result<(), String> {
        let lists = [
            &self.tails,
            &self.heads,
            &self.costs,
            &self.later,
            &self.order,
        ];
        let mut lengths: Vec<usize> = lists.iter().map(|list| list.len()).collect();
        lengths.extend(self.rooms);
        lengths.push(self.questions.len());
        if (0..11).any(|at| lengths[at] > MOST[at]) {
            return Err("a net is too large".to_string());
        }
        line(text, "", &lengths);
        for list in lists {
            // a list that has no numbers has no line
            if !list.is_empty() {
                line(text, "", list);
            }
        }
        for question in &self.questions {
            let (is_later, room) = (u32::from(question.is_later), question.room as u32);
            line(text, "", &[is_later, question.from, question.to, room]);
        }
        Ok(())
    }
}

/// The maps that have few enough junctions, with some arcs closed later.
fn maps(seed: u64) -> Result<Vec<Stored>, String> {
    let mut nets = Vec::new();
    for name in stored::NAMES {
        let (net, order) = stored::read(&stored::folder(), name)?;
        if net.n <= MOST_JUNCTIONS {
            let case = cases::closures(&net, order, &mut Source::nth(seed, net.n as u64));
            nets.push(Stored::of(case, [0, 0, 0]));
        }
    }
    Ok(nets)
}

/// A random net of at most so many edges. Its rooms have mostly the places needed, sometimes more.
fn random(source: &mut Source, most_edges: usize) -> Stored {
    loop {
        let mut case = cases::small(source);
        case.besides.clear();
        if case.graph().edges() <= most_edges {
            let spare = [(); 3].map(|()| source.pick(&[0, 0, 0, 0, 1, 2, 7]));
            return Stored::of(case, spare);
        }
    }
}

/// What can be wrong with a net.
#[derive(Clone, Copy)]
enum Fault {
    SeenEarlier,
    EntryPastN,
    TailPastN,
    HeadPastN,
    CostZero,
    CostTooGreat,
    LaterCostZero,
    HeadsShort,
    CostsLong,
    LaterShort,
    RankLong,
    FirstShort,
    RowHeadsShort,
    UpShort,
    DownShort,
    EndPastN,
    NoJunctions,
}

const FAULTS: [Fault; 17] = [
    Fault::SeenEarlier,
    Fault::EntryPastN,
    Fault::TailPastN,
    Fault::HeadPastN,
    Fault::CostZero,
    Fault::CostTooGreat,
    Fault::LaterCostZero,
    Fault::HeadsShort,
    Fault::CostsLong,
    Fault::LaterShort,
    Fault::RankLong,
    Fault::FirstShort,
    Fault::RowHeadsShort,
    Fault::UpShort,
    Fault::DownShort,
    Fault::EndPastN,
    Fault::NoJunctions,
];

/// A net with these faults, each of which it has the lists for.
fn faulty(faults: &[Fault], source: &mut Source) -> Stored {
    let mut net = loop {
        let net = random(source, 60);
        if net.order.len() >= 3 && net.tails.len() >= 3 && net.edges >= 1 {
            break net;
        }
    };
    for fault in faults {
        spoil(&mut net, *fault, source);
    }
    net
}

fn spoil(net: &mut Stored, fault: Fault, source: &mut Source) {
    let n = net.order.len() as u32;
    let past = n + source.pick(&[0, 0, 1, CLOSED - n]);
    let too_great = source.pick(&[500_001, CLOSED - 1]);
    match fault {
        Fault::SeenEarlier => {
            if let [first, .., last] = &mut net.order[..] {
                *last = *first;
            }
        }
        Fault::EntryPastN => put(&mut net.order, past, source),
        Fault::TailPastN => put(&mut net.tails, past, source),
        Fault::HeadPastN => put(&mut net.heads, past, source),
        Fault::CostZero => put(&mut net.costs, 0, source),
        Fault::CostTooGreat => put(&mut net.costs, too_great, source),
        Fault::LaterCostZero => put(&mut net.later, 0, source),
        Fault::HeadsShort => drop(net.heads.pop()),
        Fault::CostsLong => net.costs.push(1),
        Fault::LaterShort => drop(net.later.pop()),
        Fault::RankLong => net.rooms[0] += 1,
        Fault::FirstShort => net.rooms[1] -= 1,
        Fault::RowHeadsShort => net.rooms[2] = net.edges.saturating_sub(1),
        Fault::UpShort => net.rooms[3] = net.edges.saturating_sub(1),
        Fault::DownShort => net.rooms[4] = net.edges.saturating_sub(1),
        Fault::EndPastN => net.end = Some(past),
        Fault::NoJunctions => {
            net.order.clear();
            (net.rooms[0], net.rooms[1]) = (0, 1);
        }
    }
}

/// Puts a number into one or two places of a list.
fn put(list: &mut [u32], number: u32, source: &mut Source) {
    if !list.is_empty() {
        for _ in 0..source.between(1, 2) {
            list[source.below(list.len())] = number;
        }
    }
}

/// Questions, half of them with the later costs. Each distance between two junctions of the net is Dijkstra's too.
fn questions(net: &Stored, left: &Left) -> Result<Vec<Question>, String> {
    let mut source = Source::new(net.seed);
    let n = net.order.len();
    if left.built.told.number != 0 || left.costs.told.number != 0 {
        return Ok(blind_questions(net, &mut source));
    }
    let mut asked = Asked::of(&net.order, left.built.rows(), left.costs.held());
    let now = Roads::of(&net.tails, &net.heads, &net.costs);
    let leaving = Leaving::of(n, &now);
    let mut dijkstra = Dijkstra::new(n);
    let mut questions = Vec::new();
    for turn in 0..(n * 2).min(MOST_QUESTIONS) {
        let (from, to) = (source.below(n) as u32, source.below(n) as u32);
        let far = asked.distance(from, to).distance;
        if far != dijkstra.distance(&leaving, from, to).unwrap_or(NO_WALK) {
            return Err(format!("{from} to {to}: Dijkstra says something else"));
        }
        let is_later = turn % 2 == 1;
        let costs = match is_later && net.later.len() == net.tails.len() {
            true => &net.later,
            false => &net.costs,
        };
        let roads = Roads::of(&net.tails, &net.heads, costs);
        let arcs = asked.drive(&roads, from, to, MOST_ROOM).arcs();
        let room = source.pick(&[arcs, arcs, arcs + 2, arcs.saturating_sub(1)]);
        questions.push(Question {
            is_later,
            from,
            to: net.end.unwrap_or(to),
            room: room.min(MOST_ROOM),
        });
    }
    Ok(questions)
}

/// Some questions to lists that are refused.
fn blind_questions(net: &Stored, source: &mut Source) -> Vec<Question> {
    let n = net.order.len().max(1);
    let question = |turn| Question {
        is_later: turn % 2 == 1,
        from: net.end.unwrap_or(source.below(n) as u32),
        to: source.below(n) as u32,
        room: source.below(4),
    };
    (0..4).map(question).collect()
}

// ---- what is told and left

/// What build and customise leave on a net.
struct Left {
    built: BuildLeaves,
    costs: CustomiseLeaves,
}

impl Left {
    fn on(net: &Stored) -> Left {
        let [rank, first, row_heads, up, down] = net.rooms.map(|room| vec![BEFORE; room]);
        let room = Rows {
            rank: &rank,
            first: &first,
            row_heads: &row_heads,
        };
        let built = calls::build(&net.tails, &net.heads, &net.order, room);
        let room = Costs {
            up: &up,
            down: &down,
        };
        let costs = calls::customise(net.map(false), built.rows(), room);
        Left { built, costs }
    }

    /// What the program writes about a net.
    fn write(&self, text: &mut String, net: &Stored) {
        let told = self.built.told;
        let (number, place, edges) = (told.number, told.place, told.edges);
        line::<u32>(
            text,
            &format!("build {number} at {place}, edges {edges}"),
            &[],
        );
        line(text, "rank", &self.built.rank);
        line(text, "first", &self.built.first);
        line(text, "heads", &self.built.row_heads);
        let told = self.costs.told;
        line::<u32>(
            text,
            &format!("customise {} at {}", told.number, told.place),
            &[],
        );
        line(text, "up", &self.costs.up);
        line(text, "down", &self.costs.down);
        for question in &net.questions {
            self.answer(text, net, *question);
        }
    }

    /// What the program writes about a question.
    fn answer(&self, text: &mut String, net: &Stored, question: Question) {
        let Question { from, to, .. } = question;
        let (rows, costs) = (self.built.rows(), self.costs.held());
        let told = calls::distance(&net.order, rows, costs, from, to);
        let (number, place, distance) = (told.number, told.place, told.distance);
        line(text, &format!("distance {number} at {place}:"), &[distance]);
        let list = vec![BEFORE; question.room];
        let map = net.map(question.is_later);
        let leaves = calls::route(map, rows, costs, from, to, &list);
        let told = leaves.told;
        let (number, place, distance) = (told.number, told.place, told.distance);
        line(
            text,
            &format!("route {number} at {place}: {distance}, arcs {}:", told.arcs),
            &leaves.route,
        );
    }
}

/// A line: a word, if there is one, then numbers, parted by single spaces.
fn line<T: Display>(text: &mut String, word: &str, numbers: &[T]) {
    text.push_str(word);
    for (at, number) in numbers.iter().enumerate() {
        let space = if at == 0 && word.is_empty() { "" } else { " " };
        // writing to a string never fails
        let _ = write!(text, "{space}{number}");
    }
    text.push('\n');
}
