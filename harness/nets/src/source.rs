//! A source of numbers that gives the same ones for the same seed.

/// The source: a counter, scrambled (the method is splitmix64).
#[derive(Clone, Debug)]
pub struct Source {
    counter: u64,
}

impl Source {
    /// The source of a seed.
    pub fn new(seed: u64) -> Source {
        Source { counter: seed }
    }

    /// A seed that is another one at each time.
    pub fn seed_of_the_time() -> u64 {
        let now = std::time::UNIX_EPOCH.elapsed().unwrap_or_default();
        now.as_micros() as u64 % 1_000_000_000
    }

    /// A source of its own for each number, for one seed.
    pub fn nth(seed: u64, number: u64) -> Source {
        let mut of_seed = Source::new(seed);
        let mut of_number = Source::new(of_seed.any() ^ number.wrapping_mul(0xd134_2543_de82_ef95));
        Source::new(of_number.any())
    }

    /// Any number.
    pub fn any(&mut self) -> u64 {
        self.counter = self.counter.wrapping_add(0x9e37_79b9_7f4a_7c15);
        let mut x = self.counter;
        x = (x ^ (x >> 30)).wrapping_mul(0xbf58_476d_1ce4_e5b9);
        x = (x ^ (x >> 27)).wrapping_mul(0x94d0_49bb_1331_11eb);
        x ^ (x >> 31)
    }

    /// A number below `limit`, which isn't 0.
    pub fn below(&mut self, limit: usize) -> usize {
        (self.any() % limit as u64) as usize
    }

    /// A number from `least` to `most`.
    pub fn between(&mut self, least: usize, most: usize) -> usize {
        least + self.below(most - least + 1)
    }

    /// Yes so many times out of a hundred.
    pub fn percent(&mut self, times: usize) -> bool {
        self.below(100) < times
    }

    /// One of these.
    pub fn pick<T: Copy>(&mut self, these: &[T]) -> T {
        these[self.below(these.len())]
    }

    /// Puts a list in any order.
    pub fn shuffle<T>(&mut self, list: &mut [T]) {
        for end in (1..list.len()).rev() {
            list.swap(end, self.below(end + 1));
        }
    }
}
