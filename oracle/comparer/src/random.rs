//! Numbers at random, the same for the same seed (splitmix64).

use std::cell::Cell;

pub struct Random(Cell<u64>);

impl Random {
    /// The numbers that belong to one mesh (or file) of one seed.
    pub fn of(seed: u64, index: u64) -> Random {
        let random = Random(Cell::new(seed ^ index.wrapping_mul(0xd134_2543_de82_ef95)));
        random.bits();
        random
    }

    pub fn bits(&self) -> u64 {
        let mut z = self.0.get().wrapping_add(0x9e37_79b9_7f4a_7c15);
        self.0.set(z);
        z = (z ^ (z >> 30)).wrapping_mul(0xbf58_476d_1ce4_e5b9);
        z = (z ^ (z >> 27)).wrapping_mul(0x94d0_49bb_1331_11eb);
        z ^ (z >> 31)
    }

    /// A number below n; 0 where n is 0.
    pub fn below(&self, n: usize) -> usize {
        (self.bits() % n.max(1) as u64) as usize
    }

    /// A number from `least` to `most`.
    pub fn within(&self, least: usize, most: usize) -> usize {
        least + self.below(most - least + 1)
    }

    /// True once in n.
    pub fn once_in(&self, n: usize) -> bool {
        self.below(n) == 0
    }

    /// From 0 up to, not including, 1.
    pub fn unit(&self) -> f64 {
        (self.bits() >> 11) as f64 / 2f64.powi(53)
    }

    pub fn pick<T: Copy>(&self, from: &[T]) -> T {
        from[self.below(from.len())]
    }

    pub fn shuffle<T>(&self, list: &mut [T]) {
        for i in (1..list.len()).rev() {
            list.swap(i, self.below(i + 1));
        }
    }
}
