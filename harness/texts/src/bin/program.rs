//! Holds the programs `route` and `bad_line` to document 01's section "The program": on the stored texts, on long ones, and
//! on random ones by the independent program.

use cases::words::Words;
use nets::{source::Source, stored as nets_stored};
use std::path::PathBuf;
use std::process::exit;
use std::time::{Duration, Instant};
use texts::compare::{self, Wrong};
use texts::program::{shown, Program, Programs};
use texts::written::parted;
use texts::{faults, long, stored};

const USAGE: &str = "\
program: holds the programs route and bad_line to the rules on many texts

  --seed N        where the random texts come from (default: the time)
  --texts N       how many random texts (default: 1,500, or as many as there is time for in 18 seconds)
  --only K        only the random text of that number
  --nets FOLDER   where the stored texts are
  --standin       try the runs on the independent program itself
  --planted       try the runs on the independent program with each fault planted in turn

The variables ROUTE_PROGRAM and BAD_LINE_PROGRAM name the programs (default: target/bin/route and target/bin/bad_line).
Exit status: 0 if nothing failed, else 1; 2 if there is nothing to run.";

/// How many random texts there are by default, how many at the least, and when the others begin at the latest, from the
/// start.
const TEXTS: u64 = 1_500;
const LEAST_TEXTS: u64 = 100;
const LAST_CALL: Duration = Duration::from_secs(18);

/// How many random texts each planted fault gets.
const TEXTS_PLANTED: u64 = 150;

/// How many failing texts are told, and how many lines of one are printed.
const MOST_TOLD: usize = 12;
const MOST_LINES: usize = 80;

/// What is run.
enum Mode {
    Programs,
    Standin,
    Planted,
}

struct Options {
    seed: u64,
    texts: Option<u64>,
    only: Option<u64>,
    nets: PathBuf,
    mode: Mode,
}

fn main() {
    let options = options().unwrap_or_else(|error| {
        eprintln!("{error}\n\n{USAGE}");
        exit(2);
    });
    let status = match options.mode {
        Mode::Planted => planted(&options),
        Mode::Programs | Mode::Standin => compared(&options),
    };
    exit(status.unwrap_or_else(|error| {
        eprintln!("{error}");
        2
    }));
}

fn options() -> Result<Options, String> {
    let mut options = Options {
        seed: Source::seed_of_the_time(),
        texts: None,
        only: None,
        nets: nets_stored::folder(),
        mode: Mode::Programs,
    };
    let mut words = Words::given();
    while let Some(word) = words.option() {
        match word.as_str() {
            "--seed" => options.seed = words.number()?,
            "--texts" => options.texts = Some(words.number()?),
            "--only" => options.only = Some(words.number()?),
            "--nets" => options.nets = words.value()?.into(),
            "--standin" => options.mode = Mode::Standin,
            "--planted" => options.mode = Mode::Planted,
            other => return Err(format!("{other} is unknown")),
        }
    }
    Ok(options)
}

/// The programs to run, and what they are called.
fn programs(mode: &Mode) -> Result<(Programs, String), String> {
    if !matches!(mode, Mode::Programs) {
        return Ok((standin(0)?, "THE STAND-IN".to_string()));
    }
    let named = |variable: &str, path: &str| {
        std::env::var(variable)
            .ok()
            .filter(|name| !name.is_empty())
            .unwrap_or(path.to_string())
    };
    let route = named("ROUTE_PROGRAM", "target/bin/route");
    let bad_line = named("BAD_LINE_PROGRAM", "target/bin/bad_line");
    let name = format!("{route} and {bad_line}");
    let programs = Programs {
        route: Program::at(route, &[]).map_err(|error| error + ": make it with 'make programs'")?,
        bad_line: Program::at(bad_line, &[])
            .map_err(|error| error + ": make it with 'make programs'")?,
    };
    Ok((programs, name))
}

/// The stand-in with a fault planted, none for 0.
fn standin(fault: usize) -> Result<Programs, String> {
    let this = std::env::current_exe().map_err(|error| error.to_string())?;
    let path = this.with_file_name("standin-program");
    let fault = fault.to_string();
    Ok(Programs {
        route: Program::at(path.clone(), &["route", &fault])?,
        bad_line: Program::at(path, &["bad_line", &fault])?,
    })
}

/// Compares everything, and tells the exit status.
fn compared(options: &Options) -> Result<i32, String> {
    let start = Instant::now();
    let (programs, name) = programs(&options.mode)?;
    println!("programs: {name}\nseed {}", options.seed);
    let (stored, long) = match options.only {
        None => (stored::expected(&options.nets)?, long::all()),
        Some(_) => (Vec::new(), Vec::new()),
    };
    let mut failed = 0;
    let wrong = compare::stored(&programs, &stored).chain(compare::long(&programs, &long));
    for wrong in wrong {
        failed += 1;
        if failed <= MOST_TOLD {
            println!("FAILED {}: {}", wrong.name, wrong.said);
        }
    }
    let mut random = Random::default();
    if failed == 0 {
        failed += random.run(options, &programs, start);
    }
    let nothing = stored.is_empty() && options.only.is_none() || random.texts == 0 && failed == 0;
    println!(
        "{name}: {} stored texts, {} long, {} random ({} keep the rules) compared in {} s: {failed} failed",
        stored.len(),
        long.len(),
        random.texts,
        random.keep_the_rules,
        start.elapsed().as_secs()
    );
    match nothing {
        true => Err("nothing was compared".to_string()),
        false => Ok(i32::from(failed != 0)),
    }
}

/// How many random texts there were.
#[derive(Default)]
struct Random {
    texts: u64,
    keep_the_rules: u64,
}

impl Random {
    /// Compares random texts until one fails, and tells how many did.
    fn run(&mut self, options: &Options, programs: &Programs, start: Instant) -> usize {
        let numbers = match (options.only, options.texts) {
            (Some(number), _) => number..number + 1,
            (None, texts) => 0..texts.unwrap_or(TEXTS),
        };
        for number in numbers {
            let late = number >= LEAST_TEXTS && start.elapsed() > LAST_CALL;
            if late && options.texts.is_none() && options.only.is_none() {
                println!("the time was up at text {number}");
                break;
            }
            let text = compare::random_text(options.seed, number);
            self.texts += 1;
            self.keep_the_rules += u64::from(naive::text::read(&text).is_ok());
            if let Some(said) = compare::against_the_independent(programs, &text) {
                let name = format!("random text {number}");
                let wrong = Wrong { name, said, text };
                tell(&compare::made_small(programs, wrong));
                let seed = options.seed;
                println!("again: harness/program --seed {seed} --only {number}");
                return 1;
            }
        }
        0
    }
}

/// Prints a text on which a program goes wrong.
fn tell(wrong: &Wrong) {
    println!("FAILED {}: {}\non", wrong.name, wrong.said);
    let (lines, rest) = parted(&wrong.text);
    for line in lines.iter().take(MOST_LINES) {
        println!("  {}", shown(line));
    }
    if lines.len() > MOST_LINES {
        println!("  .. {} lines in all", lines.len());
    }
    if !rest.is_empty() {
        println!("  {} and no LF", shown(&rest));
    }
}

/// Plants each fault and tells which texts find it. One that none finds is a failure.
fn planted(options: &Options) -> Result<i32, String> {
    let (stored, long) = (stored::expected(&options.nets)?, long::all());
    let faults = faults::all();
    let mut missed = 0;
    println!("seed {}", options.seed);
    for (number, (fault, _)) in (1..).zip(&faults) {
        let programs = standin(number)?;
        let named = |wrong: Option<Wrong>| wrong.map_or("-".to_string(), |wrong| wrong.name);
        let by_stored = named(compare::stored(&programs, &stored).next());
        let by_long = match by_stored.as_str() {
            "-" => named(compare::long(&programs, &long).next()),
            _ => "-".to_string(),
        };
        let by_random = (0..options.texts.unwrap_or(TEXTS_PLANTED)).find(|&number| {
            let text = compare::random_text(options.seed, number);
            compare::against_the_independent(&programs, &text).is_some()
        });
        let by_random = by_random.map_or("-".to_string(), |number| format!("random {number}"));
        let found = [&by_stored, &by_long, &by_random]
            .iter()
            .any(|by| *by != "-");
        missed += i32::from(!found);
        let verdict = if found { "" } else { " NOT FOUND" };
        println!("{number:2}  {fault:50} | {by_stored:32} | {by_long:38} | {by_random}{verdict}");
    }
    println!("{} faults planted, {missed} not found", faults.len());
    Ok(i32::from(missed != 0))
}
