//! What a hierarchy's lists say, and whether they are one.

use crate::{checks, Refusal};
use std::ops::Range;

/// The lists of a hierarchy.
#[derive(Clone, Copy)]
pub struct Rows<'a> {
    /// Where each row starts.
    pub first: &'a [u32],
    /// The rows.
    pub heads: &'a [u32],
}

impl Rows<'_> {
    /// The places of a row.
    pub fn places(&self, p: usize) -> Range<usize> {
        self.first[p] as usize..self.first[p + 1] as usize
    }

    /// The place of the edge between two positions, the lower first. Rows ascend.
    pub fn place(&self, low: usize, high: usize) -> Option<usize> {
        let places = self.places(low);
        let start = places.start;
        for (at, &head) in self.heads[places].iter().enumerate() {
            if head as usize >= high {
                return (head as usize == high).then_some(start + at);
            }
        }
        None
    }

    /// The places of the edges from a position to two higher ones, if it is joined to both.
    pub fn two_places(&self, z: usize, low: usize, high: usize) -> Option<(usize, usize)> {
        let places = self.places(z);
        let mut row = places.clone().zip(&self.heads[places]);
        let (to_low, _) = row
            .find(|&(_, &head)| head as usize >= low)
            .filter(|&(_, &head)| head as usize == low)?;
        let (to_high, _) = row
            .find(|&(_, &head)| head as usize >= high)
            .filter(|&(_, &head)| head as usize == high)?;
        Some((to_low, to_high))
    }
}

/// 4 and 7; E where all is well.
pub fn check(order: &[u32], rank: &[u32], first: &[u32], heads: &[u32]) -> Result<usize, Refusal> {
    if checks::order_and_rank(order, rank)? {
        rows(order.len(), first, heads).ok_or(Refusal::NotAHierarchy)
    } else {
        Err(Refusal::NotAHierarchy)
    }
}

/// E, if first and heads are a hierarchy's. A row need only have its parent above it and the rest of it within the
/// parent's row, in that row's sequence: ascent and range then follow from the top downward.
fn rows(n: usize, first: &[u32], heads: &[u32]) -> Option<usize> {
    if first.len() != n + 1 || first[0] != 0 {
        return None;
    }
    let mut start = 0;
    for p in 0..n {
        let end = first[p + 1] as usize;
        let row = heads.get(start..end)?;
        start = end;
        let Some((&parent, rest)) = row.split_first() else {
            continue;
        };
        let parent = parent as usize;
        if parent <= p || parent >= n {
            return None;
        }
        let parents_row = heads.get(first[parent] as usize..first[parent + 1] as usize)?;
        let mut above = parents_row.iter();
        for head in rest {
            above.find(|&higher| higher == head)?;
        }
    }
    Some(start)
}
