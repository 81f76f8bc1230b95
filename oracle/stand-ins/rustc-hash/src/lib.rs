//! Stands for `rustc_hash`: the standard hash map and set over a hasher of its kind (rotate, exclusive or, multiply). The order in
//! which they are read is not that of the crate itself, so nothing that rests on that order is compared with the untouched Rust.

use std::collections::{HashMap, HashSet};
use std::hash::{BuildHasherDefault, Hasher};

pub type FxHashMap<K, V> = HashMap<K, V, BuildHasherDefault<FxHasher>>;
pub type FxHashSet<K> = HashSet<K, BuildHasherDefault<FxHasher>>;

#[derive(Clone, Copy, Default)]
pub struct FxHasher(u64);

impl Hasher for FxHasher {
    /// A word at a time, as the crate itself does: the benchmark would charge the Rust for more.
    fn write(&mut self, bytes: &[u8]) {
        let words = bytes.chunks_exact(8);
        words.remainder().iter().for_each(|byte| self.write_u64(*byte as u64));
        words.for_each(|word| self.write_u64(u64::from_le_bytes(word.try_into().unwrap())))
    }
    fn write_u64(&mut self, word: u64) {
        self.0 = (self.0.rotate_left(5) ^ word).wrapping_mul(0x517c_c1b7_2722_0a95)
    }
    fn write_usize(&mut self, word: usize) {
        self.write_u64(word as u64)
    }
    fn finish(&self) -> u64 {
        self.0
    }
}
