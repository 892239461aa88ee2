//! Changes of one arc after the other, on lists that every check accepts: held to the naive program; and with costs as
//! customised, that to customising afresh.

use crate::judge::{compare_all, EVERY_PAIR};
use crate::lists::{expected, shown, Call, Lists};
use crate::tally::Tally;
use crate::CLOSED;
use cases::Change;
use nets::source::Source;

/// Changes on any costs.
pub fn hold(lists: &Lists, changes: &[Change], tally: &mut Tally) -> Result<(), String> {
    let mut lists = lists.clone();
    for change in changes {
        lists = one(lists, change, tally)?;
    }
    Ok(())
}

/// Changes on costs as customised. Replies the lists as they are then.
pub fn hold_customised(
    lists: &Lists,
    changes: &[Change],
    tally: &mut Tally,
) -> Result<Lists, String> {
    let mut lists = lists.clone();
    for (at, change) in changes.iter().enumerate() {
        lists = one(lists, change, tally)?;
        // customising a large net takes the naive program long
        if lists.order.len() <= EVERY_PAIR || at + 1 == changes.len() {
            is_afresh(&lists)?;
        }
    }
    Ok(lists)
}

fn one(mut lists: Lists, change: &Change, tally: &mut Tally) -> Result<Lists, String> {
    (lists.arc, lists.cost) = (change.arc as u32, change.cost);
    let outcome = compare_all(Call::Change, &lists, tally)
        .map_err(|error| format!("arc {} to {}: {error}", change.arc, change.cost))?;
    tally.changed += 1;
    match outcome.told.number {
        0 => Ok(outcome.left),
        number => Err(format!("the naive program refuses by {number}")),
    }
}

/// "If the costs were the customised ones before, they equal those worked out afresh."
fn is_afresh(lists: &Lists) -> Result<(), String> {
    let edges = lists.first[lists.order.len()] as usize;
    let afresh = expected(Call::Customise, lists).left;
    for (left, afresh) in [(&lists.up, &afresh.up), (&lists.down, &afresh.down)] {
        if left[..edges] != afresh[..edges] {
            return Err(format!(
                "left {}\nafresh {}; one of the judges is wrong",
                shown(&left[..edges]),
                shown(&afresh[..edges])
            ));
        }
    }
    Ok(())
}

/// Puts any costs onto the graph, many of them alike, some round CLOSED. What stands past E stays.
pub fn make_up(lists: &mut Lists, source: &mut Source) {
    let edges = lists.first[lists.order.len()] as usize;
    let dear = source.percent(30);
    for list in [&mut lists.up, &mut lists.down] {
        for cost in &mut list[..edges] {
            *cost = match source.below(10) {
                0 | 1 => CLOSED,
                2 => source.pick(&[CLOSED - 1, CLOSED - 2, CLOSED - 9, 1 << 31]),
                3 if dear => source.any() as u32,
                4..=6 => source.below(4) as u32,
                _ => source.below(40) as u32,
            };
        }
    }
}
