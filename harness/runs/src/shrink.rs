//! Steps that make a failing case or failing lists smaller.

use crate::lists::{Lists, LISTS};
use crate::CLOSED;
use cases::shrink::cuts;
use cases::Case;
use nets::order;

/// Cases that are a step smaller.
pub fn smaller_cases(case: &Case) -> Vec<Case> {
    let mut smaller = Vec::new();
    let mut add = |change: &dyn Fn(&mut Case)| {
        let mut candidate = case.clone();
        change(&mut candidate);
        if candidate != *case {
            smaller.push(candidate);
        }
    };
    add(&|case| case.damage.clear());
    add(&|case| case.changes.clear());
    add(&|case| case.besides.clear());
    add(&|case| case.later = case.costs.clone());
    for (start, end) in cuts(case.tails.len()) {
        add(&|case| keep_arcs(case, |arc| arc < start || end <= arc));
    }
    for junction in (0..case.n as u32).rev() {
        if case.n > 1 {
            add(&|case| drop_junction(case, junction));
        }
    }
    for (start, end) in cuts(case.damage.len()) {
        add(&|case| drop(case.damage.drain(start..end)));
    }
    for (start, end) in cuts(case.changes.len()) {
        add(&|case| drop(case.changes.drain(start..end)));
    }
    for (start, end) in cuts(case.besides.len()) {
        add(&|case| drop(case.besides.drain(start..end)));
    }
    for arc in 0..case.later.len() {
        add(&|case| case.later[arc] = case.costs[arc]);
    }
    add(&|case| case.order = order::by_number(case.n));
    add(&|case| case.spare = [0; 4]);
    for arc in 0..case.costs.len() {
        for cost in [1, 2, 3, 5] {
            add(&|case| {
                if case.costs[arc] != CLOSED && case.costs[arc] > cost {
                    let unchanged = case.later[arc] == case.costs[arc];
                    case.costs[arc] = cost;
                    if unchanged {
                        case.later[arc] = cost;
                    }
                }
            });
        }
    }
    smaller
}

/// Leaves arcs out, with their changes.
fn keep_arcs(case: &mut Case, is_kept: impl Fn(usize) -> bool) {
    let kept: Vec<usize> = (0..case.tails.len()).filter(|&arc| is_kept(arc)).collect();
    for list in [
        &mut case.tails,
        &mut case.heads,
        &mut case.costs,
        &mut case.later,
    ] {
        *list = kept.iter().map(|&arc| list[arc]).collect();
    }
    case.changes.retain(|change| is_kept(change.arc));
    for change in &mut case.changes {
        change.arc = kept.partition_point(|&arc| arc < change.arc);
    }
}

/// Leaves a junction out, with all that touches it.
fn drop_junction(case: &mut Case, junction: u32) {
    let ends: Vec<(u32, u32)> = case.tails.iter().copied().zip(case.heads.clone()).collect();
    keep_arcs(case, |arc| {
        ends[arc].0 != junction && ends[arc].1 != junction
    });
    let renumbered = |at: u32| if at > junction { at - 1 } else { at };
    case.n -= 1;
    for list in [&mut case.tails, &mut case.heads] {
        list.iter_mut().for_each(|at| *at = renumbered(*at));
    }
    case.order.retain(|&at| at != junction);
    case.order.iter_mut().for_each(|at| *at = renumbered(*at));
    case.besides
        .retain(|&(a, b)| a != junction && b != junction);
    for (a, b) in &mut case.besides {
        (*a, *b) = (renumbered(*a), renumbered(*b));
    }
}

/// Lists that are a step smaller.
pub fn smaller_lists(lists: &Lists) -> Vec<Lists> {
    let mut smaller = Vec::new();
    for at in 0..LISTS {
        for (start, end) in cuts(lists.all()[at].len()) {
            let mut candidate = lists.clone();
            candidate.all_mut()[at].drain(start..end);
            smaller.push(candidate);
        }
    }
    for arc in 0..lists
        .tails
        .len()
        .min(lists.heads.len())
        .min(lists.costs.len())
    {
        let mut candidate = lists.clone();
        for at in 0..3 {
            candidate.all_mut()[at].remove(arc);
        }
        smaller.push(candidate);
    }
    for (arc, cost) in [(0, lists.cost), (lists.arc / 2, lists.cost), (lists.arc, 1)] {
        if (arc, cost) != (lists.arc, lists.cost) {
            let lists = lists.clone();
            smaller.push(Lists { arc, cost, ..lists });
        }
    }
    for at in 0..LISTS {
        for place in 0..lists.all()[at].len() {
            if lists.all()[at][place] > 1 {
                let mut candidate = lists.clone();
                candidate.all_mut()[at][place] = 1;
                smaller.push(candidate);
            }
        }
    }
    smaller
}
