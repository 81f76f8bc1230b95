//! The Rust's `truck_polymesh`: its own lib.rs, faces.rs, attributes.rs and polygon_mesh.rs, unchanged, as `../copy.rs` laid them out.

// One of the Rust's files says `use crate::*` and counts on this name, which the Rust's lib.rs imports for itself.
use serde::Deserialize;

include!(concat!(env!("OUT_DIR"), "/root.rs"));
pub use rust::*;
