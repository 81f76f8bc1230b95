//! Stands for `rustc_hash` in the ascending copy of the Rust: maps and sets that are read in ascending order of their keys.

pub use std::collections::{BTreeMap as FxHashMap, BTreeSet as FxHashSet};
