//! Makes whatever fails small: leaves out all that the failure doesn't need.

use std::time::{Duration, Instant};

/// How long shrinking may take.
const LIMIT: Duration = Duration::from_secs(15);

/// The smallest case found that still fails, with its failure.
pub fn shrink<T: Clone>(
    failing: T,
    failure: String,
    smaller: impl Fn(&T) -> Vec<T>,
    fails: impl Fn(&T) -> Option<String>,
) -> (T, String) {
    let start = Instant::now();
    let (mut best, mut failure) = (failing, failure);
    'again: loop {
        for candidate in smaller(&best) {
            if start.elapsed() > LIMIT {
                return (best, failure);
            }
            if let Some(said) = fails(&candidate) {
                best = candidate;
                failure = said;
                continue 'again;
            }
        }
        return (best, failure);
    }
}

/// Ranges to leave out of a list: halves, quarters and so on, down to single places.
pub fn cuts(length: usize) -> Vec<(usize, usize)> {
    let mut cuts = Vec::new();
    let mut size = length;
    while size > 0 {
        let mut start = 0;
        while start < length {
            cuts.push((start, (start + size).min(length)));
            start += size;
        }
        size /= 2;
    }
    cuts
}
