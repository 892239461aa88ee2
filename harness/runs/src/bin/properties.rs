//! The property runs: examples, limits, stored nets, thousands of random nets, garbage lists. Every call of the library
//! and of plain Rust is held to the naive programs, and those to Dijkstra and Floyd-Warshall.

use cases::shrink::shrink;
use cases::words::Words;
use cases::Case;
use nets::source::Source;
use nets::{order, stored, Net};
use runs::caught::{caught, silence};
use runs::garbage::{self, Handed};
use runs::tally::{refusals, Tally};
use runs::{bounds, examples, judge, shrink};
use std::path::PathBuf;
use std::process::exit;
use std::sync::{Arc, Mutex};
use std::thread;
use std::time::{Duration, Instant};

const USAGE: &str = "\
properties: holds the library's calls to the rules on many nets and lists

  --seed N        where the random cases come from (default: the time)
  --seconds N     how long to try random cases (default: 3,000 rounds, or until 80 seconds have passed)
  --patience N    after how many seconds a case that has not ended is taken for one that never does (default: 120)
  --only NAME     only the cases of that name, as `small`, `small 17`, `garbage`, `stored nets`
  --nets FOLDER   where the stored nets are
  --trace         tell each case before it is run
  --need-library  fail if the stand-in is linked
  --bare          no guard words round the lists, so that `valgrind properties --bare` sees reads outside, too
  --faults        print the faults that can be planted in the stand-in, and stop

A round is one small net and twenty sets of garbage lists; now and then there is a larger net.
Exit status: 0 if nothing failed, else 1.";

/// How many rounds there are by default, and when the last one begins at the latest, in seconds from the start.
const ROUNDS: u64 = 3_000;
const LAST_CALL: u64 = 80;

/// How many sets of garbage lists a round has.
const GARBAGE: usize = 20;

/// How often a larger net comes, and of how many junctions.
const LARGE_EVERY: u64 = 250;
const LARGE: [usize; 8] = [100, 250, 700, 400, 1_200, 150, 2_000, 4_096];

/// How long a single case may take by default, in seconds.
const PATIENCE: u64 = 120;

struct Options {
    seed: u64,
    seconds: Option<u64>,
    patience: Duration,
    only: Option<String>,
    nets: PathBuf,
    trace: bool,
}

fn main() {
    let options = options().unwrap_or_else(|error| {
        eprintln!("{error}\n\n{USAGE}");
        exit(2);
    });
    println!("linked: {}", calls::linked());
    println!("seed {}", options.seed);
    silence();
    let mut run = Run {
        options,
        start: Instant::now(),
        tally: Tally::default(),
        failed: 0,
        at: Arc::new(Mutex::new((String::new(), Instant::now()))),
    };
    run.watch();
    run.everything();
    exit(run.summary());
}

fn options() -> Result<Options, String> {
    let mut options = Options {
        seed: Source::seed_of_the_time(),
        seconds: None,
        patience: Duration::from_secs(PATIENCE),
        only: None,
        nets: stored::folder(),
        trace: false,
    };
    let mut words = Words::given();
    while let Some(word) = words.option() {
        match word.as_str() {
            "--seed" => options.seed = words.number()?,
            "--seconds" => options.seconds = Some(words.number()?),
            "--patience" => options.patience = Duration::from_secs(words.number()?),
            "--only" => options.only = Some(words.value()?),
            "--nets" => options.nets = words.value()?.into(),
            "--trace" => options.trace = true,
            "--bare" => runs::guarded::stand_bare(),
            "--need-library" if calls::LIBRARY => {}
            "--need-library" => return Err("the stand-in is linked".to_string()),
            "--faults" => {
                for (number, fault) in (1..).zip(calls::faults()) {
                    println!("{number} {fault}");
                }
                exit(0);
            }
            other => return Err(format!("{other} is unknown")),
        }
    }
    Ok(options)
}

struct Run {
    options: Options,
    start: Instant,
    tally: Tally,
    failed: u64,
    /// The case under way, and since when.
    at: Arc<Mutex<(String, Instant)>>,
}

impl Run {
    /// "every call returns": a case that doesn't is told, and ends the run.
    fn watch(&self) {
        let at = Arc::clone(&self.at);
        let patience = self.options.patience;
        thread::spawn(move || loop {
            thread::sleep(Duration::from_secs(1));
            let Ok(at) = at.lock() else { return };
            if at.1.elapsed() > patience {
                println!("FAILED {}: no end after {patience:?}", at.0);
                exit(1);
            }
        });
    }

    fn everything(&mut self) {
        self.one("examples", || {
            let (count, failed) = examples::run();
            match failed.is_empty() {
                true => Ok(Tally {
                    calls: count as u64,
                    ..Tally::default()
                }),
                false => Err(format!("these don't hold: {}", failed.join(", "))),
            }
        });
        for (name, limit) in bounds::ALL {
            self.one(&format!("limits, {name}"), || {
                let mut tally = Tally::default();
                limit(&mut tally).map(|()| tally)
            });
        }
        for name in stored::NAMES {
            self.stored_net(name);
        }
        self.rounds();
    }

    /// Whether a case is asked for. Nothing is after the first failure.
    fn wanted(&self, name: &str) -> bool {
        let within = |only: &String| {
            let rest = name.strip_prefix(only.as_str());
            rest.is_some_and(|rest| rest.is_empty() || rest.starts_with([' ', ',']))
        };
        self.failed == 0 && self.options.only.as_ref().is_none_or(within)
    }

    /// Notes which case is under way.
    fn begin(&self, name: &str) {
        if self.options.trace {
            println!("{name}");
        }
        if let Ok(mut at) = self.at.lock() {
            *at = (name.to_string(), Instant::now());
        }
    }

    fn one(&mut self, name: &str, body: impl FnOnce() -> Result<Tally, String>) {
        if self.wanted(name) {
            self.begin(name);
            match caught(body) {
                Ok(tally) => self.tally.add(&tally),
                Err(error) => self.fail(name, &error, ""),
            }
        }
    }

    fn stored_net(&mut self, name: &str) {
        let told = format!("stored nets, {name}");
        if !self.wanted(&told) {
            return;
        }
        let (net, dissected) = match stored::read(&self.options.nets, name) {
            Ok(read) => read,
            Err(error) => return self.fail(&told, &error, ""),
        };
        let mut source = Source::nth(self.options.seed, net.n as u64);
        let mut orders = vec![dissected];
        if net.n < 300 {
            orders.push(order::by_number(net.n));
            orders.push(order::shuffled(net.n, &mut source));
            orders.push(order::by_arcs(net.n, &net.tails, &net.heads, false));
        }
        for order in orders {
            self.net(&told, &net, order, &mut source);
        }
    }

    fn net(&mut self, name: &str, net: &Net, order: Vec<u32>, source: &mut Source) {
        let case = cases::closures(net, order, source);
        self.case(name, &case);
    }

    /// Judges a case; one that fails is shrunk.
    fn case(&mut self, name: &str, case: &Case) {
        self.begin(name);
        let fails = |case: &Case| caught(|| judge::judge(case)).err();
        match caught(|| judge::judge(case)) {
            Ok(tally) => self.tally.add(&tally),
            Err(error) => {
                let (case, error) = shrink(case.clone(), error, shrink::smaller_cases, fails);
                self.fail(name, &error, &case.to_string());
            }
        }
    }

    fn handed(&mut self, name: &str, handed: &Handed) {
        self.begin(name);
        let call = handed.call;
        let fails = |lists: &_| {
            let handed = Handed {
                call,
                lists: Clone::clone(lists),
            };
            caught(|| garbage::judge(&handed)).err()
        };
        match caught(|| garbage::judge(handed)) {
            Ok(tally) => self.tally.add(&tally),
            Err(error) => {
                let lists = handed.lists.clone();
                let (lists, error) = shrink(lists, error, shrink::smaller_lists, fails);
                self.fail(name, &error, &lists.to_string());
            }
        }
    }

    fn rounds(&mut self) {
        let seed = self.options.seed;
        let mut round = 0;
        let (most, end) = match self.options.seconds {
            Some(seconds) => (u64::MAX, Instant::now() + Duration::from_secs(seconds)),
            None => (ROUNDS, self.start + Duration::from_secs(LAST_CALL)),
        };
        while round < most && Instant::now() < end && self.failed == 0 {
            let name = format!("small {round}");
            if self.wanted(&name) {
                let case = cases::small(&mut Source::nth(seed, round * 3));
                self.case(&name, &case);
            }
            let name = format!("garbage {round}");
            if self.wanted(&name) {
                let mut source = Source::nth(seed, round * 3 + 1);
                let good = garbage::good_lists(&mut source);
                for _ in 0..GARBAGE {
                    if self.failed == 0 {
                        self.handed(&name, &garbage::spoilt(&good, &mut source));
                    }
                }
            }
            let name = format!("large {round}");
            if round % LARGE_EVERY == LARGE_EVERY - 1 && self.wanted(&name) {
                let n = LARGE[(round / LARGE_EVERY) as usize % LARGE.len()];
                let case = cases::large(n, &mut Source::nth(seed, round * 3 + 2));
                self.case(&name, &case);
            }
            round += 1;
        }
        if most == ROUNDS && round < most && self.failed == 0 {
            println!("the time was up at round {round} of {ROUNDS}");
        }
    }

    fn fail(&mut self, name: &str, error: &str, small: &str) {
        self.failed += 1;
        println!("FAILED {name}");
        println!("{error}");
        if !small.is_empty() {
            println!("on\n{small}");
        }
        println!(
            "again: properties --seed {} --only '{name}'",
            self.options.seed
        );
    }

    /// The last lines, and the exit status.
    fn summary(&self) -> i32 {
        let tally = &self.tally;
        let numbers: Vec<String> = refusals()
            .map(|number| format!("{number}: {}", tally.numbers[number]))
            .collect();
        println!(
            "accepted {}; refusals {}",
            tally.numbers[0],
            numbers.join(", ")
        );
        let mut failed = self.failed;
        let missing = tally.missing();
        if failed == 0 && self.options.only.is_none() && !missing.is_empty() {
            println!("FAILED no case came to the refusals {missing:?}");
            failed += 1;
        }
        println!(
            "{}: {} nets, {} sets of garbage lists, {} pairs, {} sweeps, {} routes driven, {} changes, {} calls compared in {} s: {failed} failed",
            calls::linked(),
            tally.nets,
            tally.garbage,
            tally.pairs,
            tally.swept,
            tally.driven,
            tally.changed,
            tally.calls,
            self.start.elapsed().as_secs()
        );
        i32::from(failed != 0)
    }
}
