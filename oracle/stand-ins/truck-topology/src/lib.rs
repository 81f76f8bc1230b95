//! Stands for `truck_topology`: the verdict on a shell.

pub mod shell {
    /// From the weakest to the strongest.
    #[derive(Clone, Copy, Debug, PartialEq, Eq, PartialOrd, Ord)]
    pub enum ShellCondition {
        Irregular,
        Regular,
        Oriented,
        Closed,
    }

    /// The weaker of the two, as document 01 takes it.
    impl std::ops::BitAnd for ShellCondition {
        type Output = Self;
        fn bitand(self, other: Self) -> Self {
            self.min(other)
        }
    }
}
