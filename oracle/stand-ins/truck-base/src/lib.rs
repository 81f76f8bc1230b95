//! Stands for `truck_base`, with the part of `cgmath` that it hands on.

pub mod bounding_box;
pub mod cgmath64;

/// The Rust hands this module on and makes no use of it.
pub mod hash {
    pub struct HashGen;
}

pub mod tolerance {
    /// The tolerance of the Rust's own examples.
    pub const TOLERANCE: f64 = 1e-6;
}

macro_rules! handed_on {
    ($($name: ident)*) => {
        $(
            /// The Rust hands this macro on and, in the files that are compiled here, never calls it.
            #[macro_export]
            macro_rules! $name {
                () => {};
            }
        )*
    };
}
handed_on!(assert_near assert_near2 prop_assert_near prop_assert_near2);
