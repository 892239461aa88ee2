//! Stored texts that are made and not written by hand: two nets for people, and the largest that the program takes.

use crate::stored::{folder, told};
use crate::written::{ended, net_lines, question_line};
use naive::text::{MOST_ARCS, MOST_JUNCTIONS, MOST_QUESTIONS};
use naive::walks::floyd_warshall;
use nets::county::{county, Character, USUAL};
use nets::source::Source;
use nets::{order, stored, Net, CLOSED};
use std::fs;
use std::path::Path;

/// What is said on top of bologna.txt.
const OF_BOLOGNA: [&str; 5] = [
    "c The inner city of Bologna, mostly one-way, with an order by dissection and questions.",
    "c Derived from the scenario RealWorld/joined of SUMO, as packed in Debian's sumo-tools.",
    "c Licence: Eclipse Public License 2.0, or GNU General Public License, version 2 or later.",
    "c Costs are travel times in tenths of a second.",
    "c SPDX-License-Identifier: EPL-2.0 OR GPL-2.0-or-later",
];

/// What is said on top of county.txt.
const OF_COUNTY: [&str; 3] = [
    "c A small synthetic county, made for this project: a grid pushed about, with dead ends, one-ways,",
    "c roads that are listed twice and closed roads (cost -); with an order by dissection and questions.",
    "c Costs are travel times in tenths of a second.",
];

/// Writes all of them into a folder of nets.
pub fn write(nets: &Path) -> Result<(), String> {
    let (bologna, order) = stored::read(nets, "bologna")?;
    let bologna = for_people(&OF_BOLOGNA, &bologna, &order, &mut Source::new(155));
    let program = folder(nets);
    let texts = [
        (nets.join("bologna.txt"), bologna),
        (nets.join("county.txt"), small_county()),
        (program.join("edges-4096.txt"), star(91, 1)),
        (program.join("edges-4097.txt"), star(91, 2)),
        (program.join("edges-32640.txt"), star(MOST_JUNCTIONS, 0)),
        (program.join("refused-6-before-9.txt"), star_of_cost_0()),
        (
            program.join("refused-6-after-comments.txt"),
            star_with_comments(),
        ),
        (program.join("largest-net.txt"), largest_net()),
        (program.join("longest-answer.txt"), longest_answer()),
    ];
    for (path, lines) in texts {
        fs::write(&path, ended(&lines)).map_err(told(&path))?;
    }
    Ok(())
}

/// A net with comments on what it is, its order, and questions of all kinds.
fn for_people(top: &[&str], net: &Net, order: &[u32], source: &mut Source) -> Vec<String> {
    let far = floyd_warshall(net.n, &net.tails, &net.heads, &net.costs);
    let pair = |at: usize| question_line((at / net.n) as u32, (at % net.n) as u32);
    let farthest = (0..far.len()).max_by_key(|&at| far[at]).map(pair);
    let no_walk: Vec<usize> = (0..far.len()).filter(|&at| far[at].is_none()).collect();
    let junction = source.below(net.n) as u32;
    let mut lines: Vec<String> = top.iter().map(|line| line.to_string()).collect();
    lines.extend(net_lines(net, order));
    lines.push("c any two junctions".to_string());
    for _ in 0..24 {
        let (from, to) = (source.below(net.n) as u32, source.below(net.n) as u32);
        lines.push(question_line(from, to));
    }
    lines.push("c the two that are farthest apart".to_string());
    lines.extend(farthest);
    lines.push("c two without a walk".to_string());
    lines.push(pair(source.pick(&no_walk)));
    lines.push("c start and target are the same".to_string());
    lines.push(question_line(junction, junction));
    lines.push("c there is no such junction: refused 11".to_string());
    lines.push(question_line(0, net.n as u32));
    lines
}

/// county.txt.
fn small_county() -> Vec<String> {
    let mut source = Source::new(64);
    let character = Character {
        one_way: 15,
        twice: 6,
        closed: 5,
        ..USUAL
    };
    let net = county(64, character, &mut source);
    let order = order::dissection(&net.east, &net.north, &net.tails, &net.heads);
    for_people(&OF_COUNTY, &net, &order, &mut source)
}

/// A star of so many junctions, its centre first, so that all are joined; then roads apart from it, one edge each.
fn star(junctions: usize, roads_apart: usize) -> Vec<String> {
    let mut net = Net {
        n: junctions + 2 * roads_apart,
        ..Net::default()
    };
    for leaf in 1..junctions as u32 {
        net.arc(0, leaf, 5 + leaf);
    }
    for road in 0..roads_apart {
        let end = (junctions + 2 * road) as u32;
        net.arc(end + 1, end, 7);
    }
    let mut lines = net_lines(&net, &order::by_number(net.n));
    lines.push(question_line(0, junctions as u32 - 1));
    lines.push(question_line(net.n as u32 - 1, net.n as u32 - 2));
    lines
}

/// The star of 4,097 edges, its first arc of cost 0.
fn star_of_cost_0() -> Vec<String> {
    let mut lines = star(91, 2);
    lines[1] = "a 1 2 0".to_string();
    lines
}

/// The same with a comment before every 40th line.
fn star_with_comments() -> Vec<String> {
    let lines = star_of_cost_0();
    let parts = lines.chunks(40).map(|part| part.join("\n"));
    parts.map(|part| format!("c\n{part}")).collect()
}

/// 256 junctions, 1,024 arcs, 64 questions: a county, in which some arcs are listed again and some have equal ends.
fn largest_net() -> Vec<String> {
    let mut source = Source::new(256);
    let mut net = county(MOST_JUNCTIONS, USUAL, &mut source);
    while net.tails.len() < MOST_ARCS {
        let arc = source.below(net.tails.len());
        let cost = source.pick(&[CLOSED, 1, 40, 600, 500_000]);
        let head = source.pick(&[net.heads[arc], net.heads[arc], net.tails[arc]]);
        net.arc(net.tails[arc], head, cost);
    }
    let order = order::dissection(&net.east, &net.north, &net.tails, &net.heads);
    let mut lines = net_lines(&net, &order);
    for _ in 0..MOST_QUESTIONS {
        let mut end = || source.below(MOST_JUNCTIONS) as u32;
        lines.push(question_line(end(), end()));
    }
    lines
}

/// A way through all junctions in any order, listed again and again so that the last listing has the greatest numbers,
/// each arc as dear as may be; asked from end to end, again and again.
fn longest_answer() -> Vec<String> {
    let mut source = Source::new(1_024);
    let way = order::shuffled(MOST_JUNCTIONS, &mut source);
    let mut net = Net {
        n: MOST_JUNCTIONS,
        ..Net::default()
    };
    let steps = MOST_JUNCTIONS - 1;
    for arc in (0..steps)
        .cycle()
        .skip(steps - MOST_ARCS % steps)
        .take(MOST_ARCS)
    {
        net.arc(way[arc], way[arc + 1], 500_000);
    }
    let mut lines = net_lines(&net, &order::shuffled(MOST_JUNCTIONS, &mut source));
    let ends = question_line(way[0], way[steps]);
    lines.extend(vec![ends; MOST_QUESTIONS]);
    lines
}
