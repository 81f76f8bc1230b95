//! Stands for `serde`: enough of its traits for the Rust's types to compile. Nothing is ever serialized here.

pub use serde_derive::{Deserialize, Serialize};

pub trait Serialize {}

pub trait Deserialize<'de>: Sized {
    fn deserialize<D: Deserializer<'de>>(deserializer: D) -> Result<Self, D::Error>;
}

pub trait Deserializer<'de> {
    type Error: de::Error;
}

pub mod de {
    pub trait Error {
        fn custom<T>(message: T) -> Self;
    }
}
