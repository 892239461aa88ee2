//! Faults in the answer: the line that is told, what the calls get, what is printed.

use super::Prints;
use crate::written::{each_line, ended, is_kind, net_lines, parted, question_line, words};
use naive::program::{printed, Printed};
use naive::text::{read, Text, MOST_BYTES};
use nets::{Net, CLOSED};

/// Each fault in words, and what the programs then print.
pub const FAULTS: [(&str, Prints); 29] = [
    ("lines count from 0", |input| {
        line_as(input, |line| line.saturating_sub(1))
    }),
    ("an early end gives the last line", early_end),
    ("comments don't count as lines", comments_uncounted),
    ("too long an input gives line 1", |input| {
        line_as(input, |line| line.max(1))
    }),
    ("any fault gives line 0", |input| line_as(input, |_| 0)),
    ("arcs count from 0", |input| arcs_as(input, |arc| arc - 1)),
    ("arc numbers are cut to 8 bits", |input| {
        arcs_as(input, |arc| arc % 256)
    }),
    ("no walk is none 0", |input| {
        ends_as(input, " none", " none 0")
    }),
    ("no walk is 0 0", |input| ends_as(input, " none", " 0 0")),
    ("no walk is refused", |input| {
        ends_as(input, " none", " refused 11")
    }),
    ("a start that is its target has no walk", |input| {
        ends_as(input, " 0 0", " none")
    }),
    (
        "a start that is its target has no number of arcs",
        |input| ends_as(input, " 0 0", " 0"),
    ),
    ("no walk ends the answers", |input| {
        cut_after(input, " none")
    }),
    ("a refused question ends the answers", |input| {
        cut_after(input, " refused 11")
    }),
    ("a refused question is refused alone", |input| {
        route_as(input, |route| match route.contains("refused 11") {
            true => "refused 11\n".to_string(),
            false => route,
        })
    }),
    ("a question is printed as it is written", as_written),
    ("a refusal tells its line", |input| match read(input) {
        Err(line) => route_as(input, |_| format!("refused 14 {line}\n")),
        Ok(_) => printed(input),
    }),
    ("the last LF is missing", |input| {
        route_as(input, |route| route.trim_end().to_string())
    }),
    ("a space before each LF", |input| {
        route_as(input, |route| route.replace('\n', " \n"))
    }),
    ("CR LF ends a line", |input| {
        route_as(input, |route| route.replace('\n', "\r\n"))
    }),
    ("nothing is printed without questions", |input| {
        match read(input) {
            Ok(text) if text.questions.is_empty() => route_as(input, |_| String::new()),
            _ => printed(input),
        }
    }),
    ("the answer is cut to 65,536 bytes", |input| {
        route_as(input, |route| {
            route[..route.len().min(MOST_BYTES)].to_string()
        })
    }),
    ("heads room is 4,095", |input| {
        route_as(input, |route| match route.starts_with("edges 4096\n") {
            true => "refused 6\n".to_string(),
            false => route,
        })
    }),
    ("heads room is 4,097", |input| {
        route_as(input, |route| route.replace("refused 6\n", "edges 4097\n"))
    }),
    ("a question is asked the other way round", |input| {
        other_text(input, |text| {
            text.questions
                .iter_mut()
                .for_each(|pair| *pair = (pair.1, pair.0));
        })
    }),
    ("the order is taken for the rank list", order_as_rank),
    ("cost 0 is accepted", |input| {
        costs_as(input, |cost| cost.max(1))
    }),
    ("costs over 500,000 are accepted", |input| {
        costs_as(input, |cost| {
            if cost == CLOSED {
                cost
            } else {
                cost.min(500_000)
            }
        })
    }),
    ("a closed arc is left to the calls as cost 0", |input| {
        costs_as(input, |cost| if cost == CLOSED { 0 } else { cost })
    }),
];

/// The answers become others.
fn route_as(input: &[u8], change: impl FnOnce(String) -> String) -> Printed {
    let said = printed(input);
    Printed {
        route: change(said.route),
        ..said
    }
}

/// The line told becomes another.
fn line_as(input: &[u8], change: impl FnOnce(usize) -> usize) -> Printed {
    let said = printed(input);
    let told = said.bad_line.strip_prefix("line ");
    let parts = told.and_then(|told| told.split_once(':'));
    match parts.and_then(|(line, rest)| Some((line.parse().ok()?, rest))) {
        Some((line, rest)) => Printed {
            bad_line: format!("line {}:{rest}", change(line)),
            ..said
        },
        None => said,
    }
}

/// The end of each answer that ends so becomes another.
fn ends_as(input: &[u8], end: &str, other: &str) -> Printed {
    let (end, other) = (format!("{end}\n"), format!("{other}\n"));
    route_as(input, |route| route.replace(&end, &other))
}

/// No answer comes after the first that ends so.
fn cut_after(input: &[u8], end: &str) -> Printed {
    let end = format!("{end}\n");
    route_as(input, |route| match route.find(&end) {
        Some(at) => route[..at + end.len()].to_string(),
        None => route,
    })
}

/// The arc numbers of each answer become others.
fn arcs_as(input: &[u8], change: impl Fn(u32) -> u32) -> Printed {
    route_as(input, |route| {
        let answer = each_line(route.as_bytes(), |line| {
            let words = String::from_utf8_lossy(&line).into_owned();
            let numbers = (0..).zip(words.split(' ')).map(|(at, word)| match at {
                0..=3 => word.to_string(),
                _ => change(word.parse().unwrap_or(1)).to_string(),
            });
            numbers.collect::<Vec<_>>().join(" ").into_bytes()
        });
        String::from_utf8_lossy(&answer).into_owned()
    })
}

fn early_end(input: &[u8]) -> Printed {
    let (lines, rest) = parted(input);
    line_as(input, |line| match rest.is_empty() && line > lines.len() {
        true => lines.len(),
        false => line,
    })
}

fn comments_uncounted(input: &[u8]) -> Printed {
    let (lines, _) = parted(input);
    line_as(input, |line| {
        let before = lines.iter().take(line.saturating_sub(1));
        line - before.filter(|line| is_kind(line, b"c")).count()
    })
}

fn as_written(input: &[u8]) -> Printed {
    let (lines, _) = parted(input);
    let mut questions = lines.iter().filter(|line| is_kind(line, b"q"));
    route_as(input, |route| {
        let answer = each_line(route.as_bytes(), |line| {
            let start = words(&line)[0];
            let question = match start {
                b"edges" | b"refused" => None,
                _ => questions.next(),
            };
            let Some(question) = question else {
                return line;
            };
            let mut said = words(&line);
            said.splice(..2, words(question)[1..].iter().copied());
            said.join(&b' ')
        });
        String::from_utf8_lossy(&answer).into_owned()
    })
}

/// The net and the questions become others.
fn other_text(input: &[u8], change: impl FnOnce(&mut Text)) -> Printed {
    let Ok(mut text) = read(input) else {
        return printed(input);
    };
    change(&mut text);
    let net = Net {
        n: text.order.len(),
        tails: text.tails,
        heads: text.heads,
        costs: text.costs,
        ..Net::default()
    };
    let mut lines = net_lines(&net, &text.order);
    let questions = text.questions.into_iter();
    lines.extend(questions.map(|(from, to)| question_line(from, to)));
    printed(&ended(&lines))
}

/// The costs that the calls get become others.
fn costs_as(input: &[u8], change: impl Fn(u32) -> u32) -> Printed {
    other_text(input, |text| {
        text.costs.iter_mut().for_each(|cost| *cost = change(*cost));
    })
}

fn order_as_rank(input: &[u8]) -> Printed {
    other_text(input, |text| {
        let order = text.order.clone();
        let position = |junction: u32| order.iter().position(|&at| at == junction);
        for (junction, place) in (0..).zip(&mut text.order) {
            *place = position(junction).map_or(*place, |position| position as u32);
        }
    })
}
