//! The benchmark: the library beside plain safe Rust and Dijkstra, on the stored nets and on counties of growing size.

use nets::stored;
use runs::growth::{self, Kind};
use runs::lists::Call;
use runs::measure::{self, at, Counts, PerJob, Wanted};
use runs::ready::{Ready, Who, CHANGES, DAIRIES};
use slices::Way;
use std::fmt::Write;
use std::path::{Path, PathBuf};
use std::process::exit;

const USAGE: &str = "\
bench: measures the calls beside plain safe Rust and Dijkstra

  --nets FOLDER   where the stored nets are
  --write FILE    put the tables between the two marks of a file, too, and draw growth.svg beside it; only if the library itself is linked
  --times-only    no instruction counts
  --quick         few samples, two nets";

/// The synthetic counties.
const GROWTH: [&str; 5] = [
    "county 256",
    "county 512",
    "county 1024",
    "county 2048",
    "county 4096",
];

/// The marks of a file between which the tables stand. What is written outside them is kept.
const MARKS: [&str; 2] = [
    "<!-- tables: bench writes from here -->\n",
    "<!-- tables: to here -->\n",
];

/// Nets where one arc changes every row, and where every two junctions are joined: they are measured for that alone.
const WORST: [&str; 2] = ["path 4096", "star 96"];

/// The calls of the first tables; the sweeps and change have tables of their own.
const CALLS: [Call; 4] = [Call::Build, Call::Customise, Call::Distance, Call::Route];

struct Options {
    nets: PathBuf,
    write: Option<PathBuf>,
    times_only: bool,
    quick: bool,
}

/// What was measured on one net.
struct Measured {
    name: &'static str,
    n: usize,
    arcs: usize,
    edges: usize,
    times: PerJob<f64>,
    counts: Option<Counts>,
}

fn main() {
    let result = options().and_then(|options| match options {
        Some(options) => bench(&options),
        None => Ok(()),
    });
    if let Err(error) = result {
        eprintln!("{error}");
        exit(1);
    }
}

fn options() -> Result<Option<Options>, String> {
    let mut options = Options {
        nets: stored::folder(),
        write: None,
        times_only: false,
        quick: false,
    };
    let mut words = std::env::args().skip(1);
    while let Some(word) = words.next() {
        let mut value = || words.next().ok_or(format!("{word} needs a value"));
        match word.as_str() {
            "--nets" => options.nets = value()?.into(),
            "--write" => options.write = Some(value()?.into()),
            "--times-only" => options.times_only = true,
            "--quick" => options.quick = true,
            "--under-callgrind" => {
                let (net, job) = (value()?, value()?);
                let job = job.parse().map_err(|_| format!("{job} is no job"))?;
                measure::under_callgrind(&mut Ready::named(&options.nets, &net)?, job);
                return Ok(None);
            }
            other => return Err(format!("{other} is unknown\n\n{USAGE}")),
        }
    }
    if options.write.is_some() && !calls::LIBRARY {
        return Err("nothing is written of the stand-in".to_string());
    }
    Ok(Some(options))
}

fn bench(options: &Options) -> Result<(), String> {
    let (mut nets, mut counties) = (stored::NAMES.to_vec(), GROWTH.to_vec());
    if options.quick {
        nets = vec!["liechtenstein"];
        counties = vec!["county 256"];
    }
    let measured = |names: Vec<&'static str>| -> Result<Vec<Measured>, String> {
        names
            .into_iter()
            .map(|name| measure(options, name, |_| true))
            .collect()
    };
    let (nets, counties) = (measured(nets)?, measured(counties)?);
    let is_wanted: Wanted = |call| matches!(call, Call::Customise | Call::Change);
    let worst = WORST.map(|name| measure(options, name, is_wanted));
    let worst: Vec<Measured> = worst.into_iter().collect::<Result<_, _>>()?;
    let text = report(&nets, &counties, &worst);
    println!("{text}");
    if let Some(file) = &options.write {
        write(file, &text).map_err(|error| format!("{}: {error}", file.display()))?;
        growth::draw(file, &file.with_file_name("growth.svg"))?;
    }
    Ok(())
}

/// Puts the tables between the marks of a file.
fn write(file: &Path, tables: &str) -> Result<(), String> {
    let old = std::fs::read_to_string(file).map_err(|error| error.to_string())?;
    let [from, to] = MARKS;
    let (before, rest) = old.split_once(from).ok_or("the first mark is missing")?;
    let (_, after) = rest.split_once(to).ok_or("the second mark is missing")?;
    let new = format!("{before}{from}{tables}{to}{after}");
    std::fs::write(file, new).map_err(|error| error.to_string())
}

fn measure(options: &Options, name: &'static str, wanted: Wanted) -> Result<Measured, String> {
    let mut ready = Ready::named(&options.nets, name)?;
    if !ready.agrees() {
        return Err(format!("on {name} the answers differ: run `properties`"));
    }
    let samples = if options.quick { 5 } else { 41 };
    let counts = match options.times_only {
        true => None,
        false => measure::instructions(name, &options.nets, wanted)?,
    };
    Ok(Measured {
        name,
        n: ready.lists.order.len(),
        arcs: ready.lists.tails.len(),
        edges: ready.edges,
        times: measure::times(&mut ready, samples, wanted),
        counts,
    })
}

fn report(nets: &[Measured], counties: &[Measured], worst: &[Measured]) -> String {
    let linked = calls::linked();
    let mut text = format!("Measured: {linked}.\n\n");
    for net in nets {
        table(&mut text, net);
    }
    text.push_str("## Growth\n\nSynthetic counties. Each cell: library / plain Rust = ratio.\n\n");
    for kind in Kind::ALL {
        growth_table(&mut text, kind, counties);
    }
    let _ = write!(
        text,
        "## Sweeps\n\n\
         Means over {DAIRIES} junctions, chosen anyhow among those from which most others can be reached. The sweeps' cells: library / plain Rust = ratio. Dijkstra goes from the \
         same junctions to all; the column after it is sweep_from's ratio to it. The last column is 64 distance calls of \
         the library.\n\n"
    );
    for kind in Kind::ALL {
        sweeps(&mut text, kind, nets.iter().chain(counties));
    }
    let _ = write!(
        text,
        "## Changes\n\n\
         Of each net {CHANGES} arcs, the last that is open and others chosen anyhow, each closed and opened again. Cells: library / plain Rust. \
         A column `by customise` has what stands before it by customise's number on the same net. The path goes both ways, \
         and its first junction has an arc to its last, which is the highest: that arc changes every row. The star has its centre first, so that every two \
         junctions are joined, and one of its arcs has nearly every edge reconsidered.\n\
         The marks, by customise's instructions: on average at most 0.3 on liechtenstein and 0.18 on county 4096; the worst at most 1.5 on any net.\n\n"
    );
    for kind in Kind::ALL {
        let nets = nets.iter().chain(counties).chain(worst);
        changes(&mut text, kind, nets);
    }
    text
}

/// One kind of numbers of a net, if they were measured.
fn numbers(net: &Measured, kind: Kind) -> Option<PerJob<f64>> {
    match kind {
        Kind::Microseconds => Some(net.times),
        Kind::Instructions => net
            .counts
            .map(|counts| counts.mean.map(|count| count / 1e3)),
    }
}

fn table(text: &mut String, net: &Measured) {
    // writing to a string never fails
    let _ = write!(
        text,
        "## {}: {} junctions, {} arcs, E = {}\n\n\
         | call | library µs | plain Rust µs | ratio | library instructions | plain Rust instructions | ratio |\n\
         |---|---:|---:|---:|---:|---:|---:|\n",
        net.name, net.n, net.arcs, net.edges
    );
    for call in CALLS {
        let both = [Who::Library, Who::Plain].map(|who| at((call, who)));
        let [library, plain] = both.map(|job| net.times[job]);
        let _ = write!(
            text,
            "| {} | {library:.1} | {plain:.1} | {:.2} |",
            call.name(),
            library / plain
        );
        match &net.counts {
            Some(counts) => {
                let [library, plain] = both.map(|job| counts.mean[job] / 1e3);
                let _ = writeln!(
                    text,
                    " {library:.1} | {plain:.1} | {:.2} |",
                    library / plain
                );
            }
            None => text.push_str(" | | |\n"),
        }
    }
    let dijkstra = at((Call::Distance, Who::Dijkstra));
    let library = at((Call::Distance, Who::Library));
    let _ = write!(text, "\nDijkstra, one pair: {:.1} µs", net.times[dijkstra]);
    if let Some(counts) = &net.counts {
        let _ = write!(
            text,
            ", {:.1} thousand instructions: {:.2} times those of a distance",
            counts.mean[dijkstra] / 1e3,
            counts.mean[dijkstra] / counts.mean[library]
        );
    }
    text.push_str(".\n\n");
}

/// A table of the counties by one kind of numbers, if they were measured.
fn growth_table(text: &mut String, kind: Kind, counties: &[Measured]) {
    // writing to a string never fails
    let _ = write!(
        text,
        "{}:\n\n\
         | n | arcs | E | build | customise | distance | route | Dijkstra |\n\
         |---:|---:|---:|---:|---:|---:|---:|---:|\n",
        kind.words()
    );
    for county in counties {
        let Some(numbers) = numbers(county, kind) else {
            continue;
        };
        let Measured { n, arcs, edges, .. } = county;
        let _ = write!(text, "| {n} | {arcs} | {edges} |");
        for call in CALLS {
            let [library, plain] = [Who::Library, Who::Plain].map(|who| numbers[at((call, who))]);
            let _ = write!(
                text,
                " {library:.1} / {plain:.1} = {:.2} |",
                library / plain
            );
        }
        let dijkstra = numbers[at((Call::Distance, Who::Dijkstra))];
        let _ = writeln!(text, " {dijkstra:.1} |");
    }
    text.push('\n');
}

/// A table of both sweeps by one kind of numbers, if they were measured.
fn sweeps<'a>(text: &mut String, kind: Kind, nets: impl Iterator<Item = &'a Measured>) {
    // writing to a string never fails
    let _ = write!(
        text,
        "{}:\n\n\
         | net | n | E | sweep_from | sweep_to | Dijkstra | ratio | 64 distances |\n\
         |---|---:|---:|---:|---:|---:|---:|---:|\n",
        kind.words()
    );
    for net in nets {
        let Some(numbers) = numbers(net, kind) else {
            continue;
        };
        let Measured { name, n, edges, .. } = net;
        let _ = write!(text, "| {name} | {n} | {edges} |");
        for way in [Way::From, Way::To] {
            let both = [Who::Library, Who::Plain].map(|who| at((Call::Sweep(way), who)));
            let [library, plain] = both.map(|job| numbers[job]);
            let ratio = library / plain;
            let _ = write!(text, " {library:.1} / {plain:.1} = {ratio:.2} |");
        }
        let all = [Who::Library, Who::Dijkstra, Who::Singly];
        let [library, dijkstra, singly] = all.map(|who| numbers[at((Call::Sweep(Way::From), who))]);
        let ratio = library / dijkstra;
        let _ = writeln!(text, " {dijkstra:.1} | {ratio:.2} | {singly:.1} |");
    }
    text.push('\n');
}

/// A table of change by one kind of numbers, if they were measured; only instructions are told of each change.
fn changes<'a>(text: &mut String, kind: Kind, nets: impl Iterator<Item = &'a Measured>) {
    let (names, ends) = match kind {
        Kind::Microseconds => ("", ""),
        Kind::Instructions => (" worst | by customise |", "---:|---:|"),
    };
    // writing to a string never fails
    let _ = write!(
        text,
        "{}:\n\n\
         | net | n | E | change | by customise |{names}\n\
         |---|---:|---:|---:|---:|{ends}\n",
        kind.words()
    );
    for net in nets {
        let Some(numbers) = numbers(net, kind) else {
            continue;
        };
        let Measured { name, n, edges, .. } = net;
        let _ = write!(text, "| {name} | {n} | {edges} |");
        let of = |call| [Who::Library, Who::Plain].map(|who| at((call, who)));
        let customise = of(Call::Customise).map(|job| numbers[job]);
        by_customise(text, of(Call::Change).map(|job| numbers[job]), customise);
        if let (Kind::Instructions, Some(counts)) = (kind, &net.counts) {
            let worst = of(Call::Change).map(|job| counts.worst[job] / 1e3);
            by_customise(text, worst, customise);
        }
        text.push('\n');
    }
    text.push('\n');
}

/// Two cells: what the library and plain Rust take, and that by what their customise takes.
fn by_customise(text: &mut String, [library, plain]: [f64; 2], customise: [f64; 2]) {
    let _ = write!(
        text,
        " {library:.1} / {plain:.1} = {:.2} | {:.3} / {:.3} |",
        library / plain,
        library / customise[0],
        plain / customise[1]
    );
}
