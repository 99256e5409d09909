//! A small generator of random numbers (splitmix64), so that a seed gives the same cases everywhere.

pub struct Random(u64);

impl Random {
    /// The generator of one case of a run.
    pub fn of(seed: u64, case: u64) -> Self {
        let mut random = Self(seed);
        let mixed = random.word() ^ case.wrapping_mul(0x9e37_79b9_7f4a_7c15);
        Self(mixed)
    }

    pub fn word(&mut self) -> u64 {
        self.0 = self.0.wrapping_add(0x9e37_79b9_7f4a_7c15);
        let mut z = self.0;
        z = (z ^ (z >> 30)).wrapping_mul(0xbf58_476d_1ce4_e5b9);
        z = (z ^ (z >> 27)).wrapping_mul(0x94d0_49bb_1331_11eb);
        z ^ (z >> 31)
    }

    /// A number below n.
    pub fn below(&mut self, n: usize) -> usize {
        (self.word() % n as u64) as usize
    }

    /// A number from a to b.
    pub fn within(&mut self, a: usize, b: usize) -> usize {
        a + self.below(b - a + 1)
    }

    /// True in `part` of a thousand cases.
    pub fn chance(&mut self, part: usize) -> bool {
        self.below(1000) < part
    }

    pub fn pick<T: Clone>(&mut self, items: &[T]) -> T {
        items[self.below(items.len())].clone()
    }

    pub fn shuffle<T>(&mut self, items: &mut [T]) {
        for i in (1..items.len()).rev() {
            items.swap(i, self.below(i + 1));
        }
    }

    /// The numbers below n, in some order.
    pub fn permutation(&mut self, n: usize) -> Vec<u16> {
        let mut items: Vec<u16> = (0..n as u16).collect();
        self.shuffle(&mut items);
        items
    }

    /// Some of the numbers below n, each once, in some order.
    pub fn subset(&mut self, n: usize) -> Vec<u16> {
        let size = self.below(n + 1);
        let mut items = self.permutation(n);
        items.truncate(size);
        items
    }

    /// A list of at most `most` numbers below n, repeats allowed.
    pub fn repeats(&mut self, n: usize, most: usize) -> Vec<u16> {
        if n == 0 {
            return vec![];
        }
        (0..self.below(most + 1)).map(|_| self.below(n) as u16).collect()
    }
}
