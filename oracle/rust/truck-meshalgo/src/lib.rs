//! The Rust's `truck_meshalgo`: the files that are judged by, unchanged, as `../copy.rs` laid them out. Its own lib.rs and mod.rs files
//! are not in docs/src; this file stands for them. Each of the Rust's files is included whole; what follows it in its module is ours
//! and opens what the file keeps to itself.

use truck_polymesh::StandardVertex as Vertex;
use truck_polymesh::*;

/// The Rust's macro of this name is not in docs/src; the part that calls it is not judged by.
macro_rules! nonpositive_tolerance {
    ($tolerance: expr, $least: expr) => {
        assert!($tolerance >= $least)
    };
}

mod common {
    use super::*;
    mod adjacency {
        include!(concat!(env!("OUT_DIR"), "/adjacency.rs"));
    }
    mod face_normal {
        include!(concat!(env!("OUT_DIR"), "/face_normal.rs"));
    }
    pub use adjacency::Adjacency;
    pub use face_normal::FaceNormal;
}

pub mod filters {
    use super::*;
    use truck_polymesh::polygon_mesh::PolygonMeshEditor;
    mod optimizing {
        include!(concat!(env!("OUT_DIR"), "/optimizing.rs"));
        include!("compared_pairs.rs");
    }
    mod subdivision {
        include!(concat!(env!("OUT_DIR"), "/subdivision.rs"));
    }
    pub use optimizing::{compared_pairs, OptimizingFilter};
    pub use subdivision::Subdivision;
}

pub mod analyzers {
    use super::common::*;
    use super::*;
    mod splitting {
        include!(concat!(env!("OUT_DIR"), "/splitting.rs"));
    }
    mod topology {
        include!(concat!(env!("OUT_DIR"), "/topology.rs"));
        include!("boundary.rs");
    }
    pub use splitting::Splitting;
    pub use topology::{boundary, Topology};
}

/// What the Rust's own examples import.
pub mod prelude {
    pub use super::{analyzers::*, filters::*};
    pub use truck_polymesh::*;
}
