//! Numbers that look random, the same for the same seed: splitmix64.

pub struct Random(u64);

impl Random {
    /// The numbers of one case: the seed, what the case is of, and its number.
    pub fn new(seed: u64, of: &str, number: u64) -> Self {
        let mut start = Random(seed);
        for part in of.bytes().map(u64::from).chain([number]) {
            start.0 = start.next() ^ part;
        }
        start
    }

    pub fn next(&mut self) -> u64 {
        self.0 = self.0.wrapping_add(0x9e37_79b9_7f4a_7c15);
        let z = (self.0 ^ (self.0 >> 30)).wrapping_mul(0xbf58_476d_1ce4_e5b9);
        let z = (z ^ (z >> 27)).wrapping_mul(0x94d0_49bb_1331_11eb);
        z ^ (z >> 31)
    }

    /// Less than `n`, which is not 0.
    pub fn below(&mut self, n: usize) -> usize {
        (self.next() % n as u64) as usize
    }

    pub fn from(&mut self, first: usize, last: usize) -> usize {
        first + self.below(last + 1 - first)
    }

    pub fn percent(&mut self, n: usize) -> bool {
        self.below(100) < n
    }

    pub fn pick<T: Copy>(&mut self, all: &[T]) -> T {
        all[self.below(all.len())]
    }

    /// A place, by weights that are not all 0.
    pub fn weighted(&mut self, weights: &[usize]) -> usize {
        let mut left = self.below(weights.iter().sum());
        let reached = |weight: &usize| {
            let reached = left < *weight;
            left = left.saturating_sub(*weight);
            reached
        };
        weights.iter().position(reached).expect("a weight reaches below the sum")
    }

    pub fn shuffle<T>(&mut self, all: &mut [T]) {
        for i in (1..all.len()).rev() {
            all.swap(i, self.below(i + 1));
        }
    }
}
