//! A list with guard words on either side, so that a write outside it is seen.

use std::sync::atomic::{AtomicUsize, Ordering};

/// How many guard words stand on either side.
static GUARDS: AtomicUsize = AtomicUsize::new(8);

/// From now on lists stand bare, each alone in its memory: a tool that watches memory then sees reads outside, too.
pub fn stand_bare() {
    GUARDS.store(0, Ordering::Relaxed);
}

/// The list, the guards and what the list held at first.
pub struct Guarded {
    words: Vec<u32>,
    guards: usize,
    before: Vec<u32>,
}

impl Guarded {
    /// A copy of a list, guarded.
    pub fn new(list: &[u32]) -> Guarded {
        let guards = GUARDS.load(Ordering::Relaxed);
        let mut words = Vec::with_capacity(list.len() + 2 * guards);
        words.extend((0..guards).map(guard));
        words.extend(list);
        words.extend((0..guards).map(guard));
        Guarded {
            words,
            guards,
            before: list.to_vec(),
        }
    }

    /// The list.
    pub fn list(&self) -> &[u32] {
        &self.words[self.guards..self.words.len() - self.guards]
    }

    /// The list, to be written.
    pub fn list_mut(&mut self) -> &mut [u32] {
        let end = self.words.len() - self.guards;
        &mut self.words[self.guards..end]
    }

    /// Whether every guard word is as it was. The words are taken for changed by anyone.
    pub fn holds(&mut self) -> bool {
        let words = std::hint::black_box(&mut self.words);
        let behind = &words[words.len() - self.guards..];
        (0..self.guards).all(|at| words[at] == guard(at) && behind[at] == guard(at))
    }

    /// Whether the list, too, is as it was.
    pub fn untouched(&mut self) -> bool {
        self.holds() && self.list() == self.before
    }
}

/// A word that no call has reason to write.
fn guard(at: usize) -> u32 {
    0xa5c3_96f0 ^ (at as u32).wrapping_mul(0x0101_0101)
}
