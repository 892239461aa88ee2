//! Garbage lists of every kind and length, and lists with a fault or two.

use crate::judge::compare_all;
use crate::lists::{expected, stale, Call, Lists, CALLS, DISTANCES, LISTS, ROUTE};
use crate::tally::Tally;
use crate::CLOSED;
use nets::source::Source;

/// A call, and what it is handed.
#[derive(Clone, Debug, PartialEq, Eq)]
pub struct Handed {
    /// The call.
    pub call: Call,
    /// What it is handed.
    pub lists: Lists,
}

/// Holds both implementations to what is expected.
pub fn judge(handed: &Handed) -> Result<Tally, String> {
    let mut tally = Tally {
        garbage: 1,
        ..Tally::default()
    };
    compare_all(handed.call, &handed.lists, &mut tally)?;
    Ok(tally)
}

/// Good lists of some small net, to be spoilt.
pub fn good_lists(source: &mut Source) -> Lists {
    let case = loop {
        let case = cases::small(source);
        if case.n <= 24 {
            break case;
        }
    };
    let (tails, heads) = case.joining();
    let edges = case.graph().edges();
    let built = Lists {
        tails,
        heads,
        order: case.order,
        rank: stale(case.n),
        first: stale(case.n + 1),
        row_heads: stale(edges + case.spare[0]),
        ..Lists::default()
    };
    let mut lists = expected(Call::Build, &built).left;
    lists.tails = case.tails;
    lists.heads = case.heads;
    lists.costs = case.costs;
    lists.up = stale(edges + case.spare[1]);
    lists.down = stale(edges + case.spare[2]);
    let mut lists = expected(Call::Customise, &lists).left;
    lists.route = stale(source.below(case.n + 3));
    lists.distances = stale(case.n);
    lists.from = source.below(case.n) as u32;
    lists.to = source.below(case.n) as u32;
    lists.cost = 1;
    lists
}

/// Spoils good lists for one call.
pub fn spoilt(good: &Lists, source: &mut Source) -> Handed {
    let call = source.pick(&CALLS);
    let mut lists = good.clone();
    lists.from = source.below(good.order.len()) as u32;
    lists.to = source.below(good.order.len()) as u32;
    if source.percent(12) {
        nonsense(&mut lists, source);
    } else {
        for _ in 0..source.pick(&[0, 1, 1, 1, 1, 2, 2, 3]) {
            spoil(&mut lists, source);
        }
    }
    lists.arc = source.below(good.costs.len().max(1)) as u32;
    let now = good.costs.get(lists.arc as usize).copied().unwrap_or(1);
    let dear = source.between(1, 500_000) as u32;
    lists.cost = source.pick(&[CLOSED, CLOSED, 1, 7, 500_000, now, dear, dear]);
    if source.percent(12) {
        let word = any_word(&lists, source);
        match source.below(4) {
            0 => lists.from = word,
            1 => lists.to = word,
            2 => lists.arc = word,
            _ => lists.cost = word,
        }
    }
    Handed { call, lists }
}

/// Lists that have nothing to do with each other.
fn nonsense(lists: &mut Lists, source: &mut Source) {
    let most = source.pick(&[1, 3, 6, 12, 40]);
    let sizes_agree = source.percent(50);
    let arcs = source.below(most + 1);
    let junctions = source.between(1, most);
    let small = source.between(1, 5);
    for at in 0..LISTS {
        let mut length = source.below(most + 1);
        if sizes_agree {
            length = match at {
                0..=2 => arcs,
                3 | 4 | DISTANCES => junctions,
                5 => junctions + 1,
                _ => length,
            };
        }
        let list = (0..length).map(|_| match source.percent(80) {
            true => source.below(small) as u32,
            false => any_word(lists, source),
        });
        let list = list.collect();
        *lists.all_mut()[at] = list;
    }
}

/// A word that stands near some limit, or any.
fn any_word(lists: &Lists, source: &mut Source) -> u32 {
    let n = lists.order.len() as u32;
    let edges = lists.first.last().copied().unwrap_or(0);
    match source.below(4) {
        0 => source.below(n as usize + 2) as u32,
        1 => {
            let arcs = lists.tails.len() as u32;
            source.pick(&[
                n.wrapping_sub(1),
                n,
                n + 1,
                edges,
                edges.wrapping_add(1),
                arcs,
            ])
        }
        2 => source.pick(&[
            0,
            1,
            4_095,
            4_096,
            4_097,
            16_384,
            500_000,
            500_001,
            1 << 16,
            1 << 31,
            CLOSED - 1,
            CLOSED,
        ]),
        _ => source.any() as u32,
    }
}

/// One fault.
fn spoil(lists: &mut Lists, source: &mut Source) {
    match source.below(12) {
        0 | 1 => drop_edge(lists, source),
        2 => add_edge(lists, source),
        3 if !lists.costs.is_empty() => {
            let arc = source.below(lists.costs.len());
            lists.costs[arc] = source.pick(&[0, 0, 500_001, 600_000, CLOSED - 1, CLOSED, 500_000]);
        }
        4 => {
            let at = source.below(LISTS);
            let length = lists.all()[at].len();
            let length = source.pick(&[0, length / 2, length.saturating_sub(1), length + 1]);
            lists.all_mut()[at].resize(length, 0);
        }
        5 => {
            let at = source.pick(&[3, 4, 6]);
            let list = &mut lists.all_mut()[at];
            if list.len() > 1 {
                let (a, b) = (source.below(list.len()), source.below(list.len()));
                list.swap(a, b);
            }
        }
        // what stands in the route list or in the distance list is never read
        _ => {
            let at = source.below(ROUTE);
            let word = any_word(lists, source);
            let list = &mut lists.all_mut()[at];
            if list.is_empty() {
                list.push(word);
                return;
            }
            let place = source.below(list.len());
            match source.below(7) {
                0 => list.insert(place, word),
                1 => drop(list.remove(place)),
                2 => list[place] = list[place].wrapping_add(1),
                3 => list[place] = list[place].wrapping_sub(1),
                4 => list[place] = list[source.below(list.len())],
                _ => list[place] = word,
            }
        }
    }
}

/// A row with an entry at a place, if there is one.
fn row_of(lists: &Lists, place: usize) -> usize {
    let above = lists.first.iter().filter(|&&start| start as usize <= place);
    above.count().saturating_sub(1)
}

/// Takes an edge out of its row, and moves the later rows up.
fn drop_edge(lists: &mut Lists, source: &mut Source) {
    let edges = lists.first.last().map_or(0, |&edges| edges as usize);
    if edges == 0 || edges > lists.row_heads.len() {
        return;
    }
    let place = source.below(edges);
    let row = row_of(lists, place);
    lists.row_heads.remove(place);
    for start in lists.first.iter_mut().skip(row + 1) {
        *start = start.wrapping_sub(1);
    }
}

/// Puts an edge into a row, where it would stand if the row ascends.
fn add_edge(lists: &mut Lists, source: &mut Source) {
    let n = lists.order.len();
    if n < 2 || lists.first.len() != n + 1 {
        return;
    }
    let row = source.below(n - 1);
    let high = source.between(row, n) as u32;
    let (start, end) = (lists.first[row] as usize, lists.first[row + 1] as usize);
    let Some(entries) = lists.row_heads.get(start..end) else {
        return;
    };
    let at = entries.iter().filter(|&&head| head < high).count();
    lists.row_heads.insert(start + at, high);
    for start in lists.first.iter_mut().skip(row + 1) {
        *start = start.wrapping_add(1);
    }
    if source.percent(70) {
        lists.up.push(CLOSED);
        lists.down.push(CLOSED);
    }
}
