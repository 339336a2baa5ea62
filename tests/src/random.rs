//! A small generator of random numbers (splitmix64): the seed alone determines all of them.

pub struct Random {
    state: u64,
}

impl Random {
    /// The stream keeps generators of one seed apart.
    pub fn new(seed: u64, stream: u64) -> Random {
        let mut random = Random { state: seed ^ stream.wrapping_mul(0xd134_2543_de82_ef95) };
        // Neighbouring seeds give neighbouring states; one round takes them apart.
        random.state = random.number().wrapping_add(seed);
        random
    }

    pub fn number(&mut self) -> u64 {
        self.state = self.state.wrapping_add(0x9e37_79b9_7f4a_7c15);
        let mut mixed = self.state;
        mixed = (mixed ^ (mixed >> 30)).wrapping_mul(0xbf58_476d_1ce4_e5b9);
        mixed = (mixed ^ (mixed >> 27)).wrapping_mul(0x94d0_49bb_1331_11eb);
        mixed ^ (mixed >> 31)
    }

    /// A number from 0 to below the limit; 0 if the limit is 0.
    pub fn below(&mut self, limit: u64) -> u64 {
        self.number().checked_rem(limit).unwrap_or(0)
    }

    /// A number between two, both included.
    pub fn between(&mut self, lowest: i64, highest: i64) -> i64 {
        let width = highest.wrapping_sub(lowest).max(0) as u64;
        lowest.wrapping_add(self.below(width.saturating_add(1)) as i64)
    }

    pub fn index(&mut self, length: usize) -> usize {
        self.below(length as u64) as usize
    }

    pub fn byte(&mut self) -> u8 {
        (self.number() >> 32) as u8
    }

    pub fn chance(&mut self, percent: u64) -> bool {
        self.below(100) < percent
    }

    /// One of the things, if there is one.
    pub fn pick<T: Clone>(&mut self, things: &[T]) -> Option<T> {
        things.get(self.index(things.len())).cloned()
    }

    /// The index of one of the weights, as often as its share of their sum.
    pub fn weighted(&mut self, weights: &[u64]) -> usize {
        let mut left = self.below(weights.iter().sum());
        for (index, weight) in weights.iter().enumerate() {
            if left < *weight {
                return index;
            }
            left -= weight;
        }
        0
    }
}
