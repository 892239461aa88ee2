//! A reader of the 9th DIMACS Implementation Challenge's files: `.gr` with arcs, `.co` with coordinates; and of files that
//! tell an order or which arcs are closed. Junctions and arcs are counted from 1 there.

use crate::{Net, CLOSED};
use std::fs;
use std::path::Path;

/// The most that the library takes.
const MOST_JUNCTIONS: usize = 4_096;
const MOST_ARCS: usize = 16_384;
const DEAREST: u32 = 500_000;

/// What is wrong with a line, in words.
type Fault = &'static str;

/// Reads FOLDER/NAME.gr and FOLDER/NAME.co.
pub fn read(folder: &Path, name: &str) -> Result<Net, String> {
    let mut net = arcs(&folder.join(format!("{name}.gr")))?;
    coordinates(&folder.join(format!("{name}.co")), &mut net)?;
    Ok(net)
}

/// The junctions and arcs of a `.gr`. Its lines `o` and `q`, which the program `route` reads, are passed over.
pub fn arcs(file: &Path) -> Result<Net, String> {
    let mut net = Net::default();
    let mut promised = None;
    for_each_line(file, |words| arc_line(&mut net, &mut promised, words))?;
    let (name, listed) = (file.display(), net.tails.len());
    match promised {
        None => Err(format!("{name}: there is no line p")),
        Some(m) if m != listed => Err(format!("{name}: p says {m} arcs, here are {listed}")),
        Some(_) => Ok(net),
    }
}

/// Puts the coordinates of a `.co` into a net.
pub fn coordinates(file: &Path, net: &mut Net) -> Result<(), String> {
    for_each_line(file, |words| coordinate_line(net, words))?;
    match net.east.is_empty() {
        true => Err(format!("{}: there is no line p", file.display())),
        false => Ok(()),
    }
}

/// An order of n junctions: lines `o junction`, or one junction a line. Other lines of a `.gr` are passed over, and a file
/// without any such line has no order.
pub fn order(file: &Path, n: usize) -> Result<Option<Vec<u32>>, String> {
    let mut order = Vec::new();
    let mut seen = vec![false; n];
    for_each_line(file, |words| {
        let ([at] | ["o", at]) = *words else {
            let known = matches!(words[0], "p" | "a" | "q");
            return if known { Ok(()) } else { Err(NO_SUCH_LINE) };
        };
        let at = junction(n, at)?;
        order.push(at);
        match std::mem::replace(&mut seen[at as usize], true) {
            true => Err("this junction has its place already"),
            false => Ok(()),
        }
    })?;
    match order.len() {
        0 => Ok(None),
        placed if placed == n => Ok(Some(order)),
        placed => {
            let name = file.display();
            Err(format!(
                "{name}: {n} junctions, and {placed} have their place"
            ))
        }
    }
}

/// The costs of a net with some arcs closed: lines `arc`, or `tail head` for every arc from one junction to another.
pub fn closed(file: &Path, net: &Net) -> Result<Vec<u32>, String> {
    let mut costs = net.costs.clone();
    for_each_line(file, |words| match *words {
        [arc] => {
            let arc: usize = arc.parse().map_err(|_| NO_SUCH_LINE)?;
            let cost = arc.checked_sub(1).and_then(|arc| costs.get_mut(arc));
            *cost.ok_or("there is no such arc")? = CLOSED;
            Ok(())
        }
        [tail, head] => {
            let ends = (junction(net.n, tail)?, junction(net.n, head)?);
            let mut found = false;
            for (arc, cost) in costs.iter_mut().enumerate() {
                if (net.tails[arc], net.heads[arc]) == ends {
                    (*cost, found) = (CLOSED, true);
                }
            }
            found
                .then_some(())
                .ok_or("no arc runs from one to the other")
        }
        _ => Err(NO_SUCH_LINE),
    })?;
    Ok(costs)
}

const NO_SUCH_LINE: Fault = "no line of this file is written so";

fn for_each_line(
    file: &Path,
    mut take: impl FnMut(&[&str]) -> Result<(), Fault>,
) -> Result<(), String> {
    let name = file.display();
    let text = fs::read_to_string(file).map_err(|error| format!("{name}: {error}"))?;
    for (at, line) in text.lines().enumerate() {
        let words: Vec<&str> = line.split_whitespace().collect();
        if !words.is_empty() && words[0] != "c" {
            take(&words).map_err(|fault| format!("{name}, line {}: {fault}: {line}", at + 1))?;
        }
    }
    Ok(())
}

fn arc_line(net: &mut Net, promised: &mut Option<usize>, words: &[&str]) -> Result<(), Fault> {
    match *words {
        ["p", "sp", n, m] if promised.is_none() => {
            net.n = number_to(n, MOST_JUNCTIONS).ok_or("a net has 1 to 4,096 junctions")?;
            *promised = Some(number_to(m, MOST_ARCS).ok_or("a net has at most 16,384 arcs")?);
            match net.n {
                0 => Err("a net has 1 to 4,096 junctions"),
                _ => Ok(()),
            }
        }
        ["a", tail, head, cost] => {
            let cost = match cost {
                "-" => CLOSED,
                cost => (cost.parse().ok())
                    .filter(|cost| (1..=DEAREST).contains(cost))
                    .ok_or("a cost is 1 to 500,000 or -")?,
            };
            net.arc(junction(net.n, tail)?, junction(net.n, head)?, cost);
            Ok(())
        }
        ["o", _] | ["q", _, _] => Ok(()),
        _ => Err(NO_SUCH_LINE),
    }
}

fn coordinate_line(net: &mut Net, words: &[&str]) -> Result<(), Fault> {
    match *words {
        ["p", "aux", "sp", "co", n] if n.parse() == Ok(net.n) => {
            net.east = vec![0; net.n];
            net.north = vec![0; net.n];
            Ok(())
        }
        ["p", "aux", "sp", "co", _] => Err("the net has another number of junctions"),
        ["v", at, east, north] => {
            let at = junction(net.n, at)? as usize;
            let place = |word: &str| word.parse().map_err(|_| "a place is a whole number");
            *net.east.get_mut(at).ok_or("p comes first")? = place(east)?;
            *net.north.get_mut(at).ok_or("p comes first")? = place(north)?;
            Ok(())
        }
        _ => Err(NO_SUCH_LINE),
    }
}

fn number_to(word: &str, most: usize) -> Option<usize> {
    word.parse().ok().filter(|&number| number <= most)
}

/// The files count junctions from 1.
fn junction(n: usize, word: &str) -> Result<u32, Fault> {
    match number_to(word, n) {
        Some(number) if number > 0 => Ok(number as u32 - 1),
        _ => Err("a junction is 1 to the number of junctions"),
    }
}
