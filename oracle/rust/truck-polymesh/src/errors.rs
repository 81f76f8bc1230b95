//! Stands for the Rust's errors.rs: the one error that its checks name.

#[derive(Clone, Copy, Debug)]
pub enum Error<V> {
    /// A corner's index is not below the count of its list.
    OutOfRange(V),
}
