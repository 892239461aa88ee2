//! Tries the library on a net of one's own: every call, and plain Rust's, held to the naive programs, and those to
//! Dijkstra and Floyd-Warshall.

use cases::words::Words;
use cases::{Case, Change};
use nets::{dimacs, order, Net};
use runs::caught::{caught, silence};
use runs::judge;
use std::path::{Path, PathBuf};
use std::process::exit;

const USAGE: &str = "\
try: holds the library's calls to the rules on a net of your own

  try NET.gr [--coordinates NET.co] [--order FILE] [--closed FILE] [--pairs N] [--seed N]

  NET.gr          junctions and arcs: `p sp n m`, then `a tail head cost`, a cost being 1 to 500000 or -
  --coordinates   where the junctions lie: `p aux sp co n`, then `v junction east north`
  --order FILE    the order: `o junction` or one junction a line. Without it: the lines `o` of NET.gr if it has some,
                  else dissection by the coordinates if they are given, else the junctions by number
  --closed FILE   arcs to close, one a line: its number, or `tail head` for all from one junction to another
  --pairs N       how many pairs to ask for. Without it: every pair up to 60 junctions, else 40, and 10 beyond 2,000
  --seed N        where the choice of pairs comes from (default: 1)

Junctions and arcs are counted from 1 in the files, and from 0 where a difference is told.
Exit status: 0 if nothing differs, 1 if something does, 2 if a file can't be read or breaks the rules.";

/// What is asked for.
#[derive(Default)]
struct Options {
    net: PathBuf,
    coordinates: Option<PathBuf>,
    order: Option<PathBuf>,
    closed: Option<PathBuf>,
    pairs: Option<usize>,
    seed: u64,
}

fn main() {
    let options = options().unwrap_or_else(|error| {
        eprintln!("{error}\n\n{USAGE}");
        exit(2);
    });
    let given = Given::read(&options).unwrap_or_else(|error| {
        eprintln!("{error}");
        exit(2);
    });
    println!("linked: {}", calls::linked());
    silence();
    exit(given.try_all(&options));
}

fn options() -> Result<Options, String> {
    let mut options = Options {
        seed: 1,
        ..Options::default()
    };
    let mut words = Words::given();
    while let Some(word) = words.option() {
        match word.as_str() {
            "--coordinates" => options.coordinates = Some(words.value()?.into()),
            "--order" => options.order = Some(words.value()?.into()),
            "--closed" => options.closed = Some(words.value()?.into()),
            "--pairs" => options.pairs = Some(words.number()? as usize),
            "--seed" => options.seed = words.number()?,
            other if other.starts_with("--") => return Err(format!("{other} is unknown")),
            net if options.net.as_os_str().is_empty() => options.net = net.into(),
            other => return Err(format!("{other}: one net at a time")),
        }
    }
    match options.net.as_os_str().is_empty() {
        true => Err("no net is named".to_string()),
        false => Ok(options),
    }
}

/// The net with its order, where that comes from, and its costs once the closures have come.
struct Given {
    net: Net,
    order: Vec<u32>,
    by: String,
    closed: Option<Vec<u32>>,
}

impl Given {
    fn read(options: &Options) -> Result<Given, String> {
        let mut net = dimacs::arcs(&options.net)?;
        if let Some(file) = &options.coordinates {
            dimacs::coordinates(file, &mut net)?;
        }
        let (order, by) = order_of(options, &net)?;
        let closed = options.closed.as_ref();
        let closed = closed.map(|file| dimacs::closed(file, &net)).transpose()?;
        Ok(Given {
            net,
            order,
            by,
            closed,
        })
    }

    /// The net as it is, asked once more after the closures with nothing redone, and after they came one by one; then
    /// with the closures from the start, and opened again one by one.
    fn try_all(&self, options: &Options) -> i32 {
        let mut case = Case::on(&self.net, self.order.clone());
        case.seed = options.seed;
        println!(
            "{}: {} junctions, {} arcs, order {}",
            base_name(&options.net),
            case.n,
            case.tails.len(),
            self.by
        );
        println!("E: {}", case.graph().edges());
        let pairs = options.pairs.unwrap_or(judge::usual_pairs(case.n));
        let Some(closed) = &self.closed else {
            case.change_some(6);
            return summed(&[try_one("as it is", &case, pairs)]);
        };
        case.later = closed.clone();
        case.changes = turns(&self.net.costs, closed);
        let name = "as it is, then arcs closed with nothing redone";
        let before = try_one(name, &case, pairs);
        case.costs = closed.clone();
        case.changes = turns(closed, &self.net.costs);
        let shut = closed.iter().zip(&self.net.costs);
        let shut = shut.filter(|(now, before)| now != before).count();
        let after = try_one(
            &format!("with {shut} more arcs closed, customised"),
            &case,
            pairs,
        );
        summed(&[before, after])
    }
}

/// How many closures come one by one at most.
const MOST_TURNS: usize = 12;

/// The first arcs whose costs differ, each getting its new cost in turn.
fn turns(old: &[u32], new: &[u32]) -> Vec<Change> {
    let costs = old.iter().zip(new).enumerate();
    let differ = costs.filter(|(_, (old, new))| old != new);
    let turns = differ.map(|(arc, (_, &cost))| Change { arc, cost });
    turns.take(MOST_TURNS).collect()
}

fn order_of(options: &Options, net: &Net) -> Result<(Vec<u32>, String), String> {
    if let Some(file) = &options.order {
        let order = dimacs::order(file, net.n)?;
        let order = order.ok_or_else(|| format!("{}: there is no order", file.display()))?;
        return Ok((order, format!("of {}", base_name(file))));
    }
    if let Some(order) = dimacs::order(&options.net, net.n)? {
        return Ok((order, "of its own".to_string()));
    }
    if net.east.is_empty() {
        return Ok((order::by_number(net.n), "by number".to_string()));
    }
    let order = order::dissection(&net.east, &net.north, &net.tails, &net.heads);
    Ok((order, "by dissection".to_string()))
}

/// Tries one case, and tells what was done. Whether nothing differs.
fn try_one(name: &str, case: &Case, pairs: usize) -> bool {
    match caught(|| judge::judge_asking(case, pairs)) {
        Ok(tally) => {
            println!(
                "{name}: {} pairs, {} sweeps, {} routes driven, {} changes, {} calls compared: nothing differs",
                tally.pairs, tally.swept, tally.driven, tally.changed, tally.calls
            );
            true
        }
        Err(error) => {
            println!("{name}: DIFFERS\n{error}");
            false
        }
    }
}

/// The last line, and the exit status.
fn summed(right: &[bool]) -> i32 {
    let wrong = right.iter().filter(|&&right| !right).count();
    let runs = if right.len() == 1 { "run" } else { "runs" };
    println!(
        "{}: {} {runs}, {wrong} differ",
        calls::linked(),
        right.len()
    );
    i32::from(wrong != 0)
}

/// A file's name without its folder.
fn base_name(file: &Path) -> String {
    let name = file.file_name().unwrap_or_default();
    name.to_string_lossy().into_owned()
}
