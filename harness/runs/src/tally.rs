//! What was run, in numbers.

use crate::Told;

/// Counts.
#[derive(Clone, Debug, Default)]
pub struct Tally {
    /// Nets judged.
    pub nets: u64,
    /// Sets of garbage lists judged.
    pub garbage: u64,
    /// Calls compared, over both implementations.
    pub calls: u64,
    /// Pairs of junctions asked for.
    pub pairs: u64,
    /// Sweeps asked for.
    pub swept: u64,
    /// Changes of an arc's cost.
    pub changed: u64,
    /// Routes driven arc by arc.
    pub driven: u64,
    /// How often each refusal was expected; at 0, how often a call was accepted.
    pub numbers: [u64; 18],
}

impl Tally {
    /// Counts a call that was compared.
    pub fn call(&mut self, told: Told) {
        self.calls += 1;
        self.numbers[told.number as usize] += 1;
    }

    /// Adds another's counts.
    pub fn add(&mut self, other: &Tally) {
        self.nets += other.nets;
        self.garbage += other.garbage;
        self.calls += other.calls;
        self.pairs += other.pairs;
        self.swept += other.swept;
        self.changed += other.changed;
        self.driven += other.driven;
        for (sum, more) in self.numbers.iter_mut().zip(other.numbers) {
            *sum += more;
        }
    }

    /// The refusals that were never expected.
    pub fn missing(&self) -> Vec<usize> {
        refusals()
            .filter(|&number| self.numbers[number] == 0)
            .collect()
    }
}

/// The refusals that a call can give: 14 is the program's alone.
pub fn refusals() -> impl Iterator<Item = usize> {
    (1..=17).filter(|&number| number != 14)
}
