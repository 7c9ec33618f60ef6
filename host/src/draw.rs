//! A small generator of numbers with a fixed seed (splitmix64), and floors drawn by it.
#![allow(dead_code)]

pub struct Draw(pub u64);

impl Draw {
    pub fn next(&mut self) -> u64 {
        self.0 = self.0.wrapping_add(0x9e37_79b9_7f4a_7c15);
        let mut z = self.0;
        z = (z ^ (z >> 30)).wrapping_mul(0xbf58_476d_1ce4_e5b9);
        z = (z ^ (z >> 27)).wrapping_mul(0x94d0_49bb_1331_11eb);
        z ^ (z >> 31)
    }

    /// A number below the bound.
    pub fn below(&mut self, bound: usize) -> usize {
        (self.next() % bound as u64) as usize
    }

    /// A number from a to b, both included.
    pub fn between(&mut self, a: usize, b: usize) -> usize {
        a + self.below(b - a + 1)
    }

    /// True in so many of a hundred.
    pub fn percent(&mut self, chance: usize) -> bool {
        self.below(100) < chance
    }

    /// One of a list.
    pub fn of<T: Copy>(&mut self, list: &[T]) -> T {
        list[self.below(list.len())]
    }

    /// A list of docks, different cells below the bound: one in half of the draws, else up to four; at times each the neighbour of the one before.
    pub fn docks(&mut self, cells: usize) -> Vec<usize> {
        let count = if self.percent(50) { 1 } else { self.between(1, 4) }.min(cells);
        if self.percent(25) {
            let first = self.below(cells - count + 1);
            let mut row: Vec<usize> = (first..first + count).collect();
            if self.percent(50) {
                row.reverse();
            }
            return row;
        }
        self.different(count, cells)
    }

    /// So many different numbers below the bound, in the order drawn.
    pub fn different(&mut self, count: usize, bound: usize) -> Vec<usize> {
        let mut all: Vec<usize> = (0..bound).collect();
        for k in 0..count {
            let other = self.between(k, bound - 1);
            all.swap(k, other);
        }
        all.truncate(count);
        all
    }
}
