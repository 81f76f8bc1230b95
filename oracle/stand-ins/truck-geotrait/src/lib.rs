//! Stands for `truck_geotrait`: the two traits that the Rust's meshes implement.

/// Things that can be turned inside out.
pub trait Invertible: Clone {
    fn invert(&mut self);
    fn inverse(&self) -> Self;
}

/// Things that a transformation moves.
pub trait Transformed<T>: Clone {
    fn transform_by(&mut self, trans: T);
    fn transformed(&self, trans: T) -> Self;
}
