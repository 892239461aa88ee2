//! "The program": what `route` prints for any input, and what the second program `bad_line` prints.

use crate::calls::{build, customise, route, Costs, Roadmap, Rows, Told};
use crate::causes;
use crate::text::{read, Text};
use crate::NO_WALK;

/// "Heads room is 4,096, route room 256"; the up and the down list have as many places as heads.
const HEADS_ROOM: usize = 4_096;
const ROUTE_ROOM: usize = 256;

/// What the two programs print, every line ended by LF.
#[derive(Clone, Debug, PartialEq, Eq)]
pub struct Printed {
    /// By `route`.
    pub route: String,
    /// By `bad_line`.
    pub bad_line: String,
}

/// A refusal of the whole text: its number and its place.
type Refused = (u32, usize);

/// What the two programs print for an input. The whole text is read first: refusal 14 comes before any other.
pub fn printed(input: &[u8]) -> Printed {
    let answer = read(input)
        .map_err(|line| (14, line))
        .and_then(|text| answer(&text));
    match answer {
        Ok(route) => Printed {
            route,
            bad_line: "the text keeps the rules\n".to_string(),
        },
        // "Any earlier refusal prints only `refused N`."
        Err((number, place)) => Printed {
            route: format!("refused {number}\n"),
            bad_line: causes::told(input, number, place),
        },
    }
}

/// A refusal as an error.
fn accepted(told: Told) -> Result<(), Refused> {
    match told.number {
        0 => Ok(()),
        number => Err((number, told.place as usize)),
    }
}

/// "First line: E. Then per question", or what build or customise refuses with.
fn answer(text: &Text) -> Result<String, Refused> {
    let n = text.order.len();
    let (rank, first) = (vec![0; n], vec![0; n + 1]);
    let room = [0; HEADS_ROOM];
    let rows = Rows {
        rank: &rank,
        first: &first,
        row_heads: &room,
    };
    let built = build(&text.tails, &text.heads, &text.order, rows);
    accepted(built.told)?;
    let map = Roadmap {
        tails: &text.tails,
        heads: &text.heads,
        costs: &text.costs,
        order: &text.order,
    };
    let rows = built.rows();
    let (up, down) = (&room, &room);
    let left = customise(map, rows, Costs { up, down });
    accepted(left.told)?;
    let mut answer = format!("edges {}\n", built.told.edges);
    for &(from, to) in &text.questions {
        let leaves = route(map, rows, left.held(), from, to, &[0; ROUTE_ROOM]);
        let said = said(leaves.told, &leaves.route);
        answer += &format!("{} {} {said}\n", from + 1, to + 1);
    }
    Ok(answer)
}

/// "from, to, distance, number of arcs, arc numbers counted from 1. No walk: `from to none`. A refused question:
/// `from to refused N`." This is all that comes after from and to.
fn said(told: Told, route: &[u32]) -> String {
    if told.number != 0 {
        return format!("refused {}", told.number);
    }
    if told.distance == NO_WALK {
        return "none".to_string();
    }
    let arcs = route[..told.arcs as usize].iter();
    let mut numbers = vec![told.distance, told.arcs];
    numbers.extend(arcs.map(|&arc| u64::from(arc) + 1));
    let words: Vec<String> = numbers.iter().map(u64::to_string).collect();
    words.join(" ")
}
