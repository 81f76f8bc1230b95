//! The untouched Rust: its own functions on its own mesh, which is made beforehand. Where a function changes its mesh, a copy is
//! made for each run; neither that nor the disposal of what comes back is timed.

use crate::scan;
use crate::shapes::Case;
use crate::time::fastest;
use judge::rust::into_rust;
use judge::Call;
use std::time::Duration;
use truck_meshalgo::analyzers::{boundary, Splitting, Topology};
use truck_meshalgo::filters::{OptimizingFilter, Subdivision};
use truck_polymesh::{Faces, PolygonMesh, StandardAttributes, StandardVertex};

/// How long the Rust takes for what a call gives; none where it has nothing like it. For house wires it is its `extract_boundaries`.
pub fn time(call: Call, case: &Case) -> Option<Duration> {
    let mesh = into_rust(&case.mesh).unwrap();
    let copy = || mesh.clone();
    let changed = |change: &dyn Fn(&mut PolygonMesh)| {
        fastest(copy, |mut mesh| {
            change(&mut mesh);
            mesh
        })
    };
    Some(match call {
        Call::MeshNumber => fastest(
            || (attributes(&mesh), mesh.faces().clone()),
            |(attributes, faces)| PolygonMesh::try_new(attributes, faces).is_ok(),
        ),
        Call::RemoveUnusedAttrs | Call::CompactInPlace => changed(&|mesh| {
            mesh.remove_unused_attrs();
        }),
        Call::RemoveDegenerateFaces => changed(&|mesh| {
            mesh.remove_degenerate_faces();
        }),
        Call::PutTogetherSameAttrs | Call::PutTogetherByCell => changed(&|mesh| {
            mesh.put_together_same_attrs(case.tolerance);
        }),
        Call::ShellCondition => fastest(|| (), |()| mesh.shell_condition()),
        Call::HemEdges => fastest(|| (), |()| boundary(mesh.faces())),
        Call::ExtractBoundaries | Call::HouseWires => fastest(|| (), |()| mesh.extract_boundaries()),
        Call::Components => fastest(|| (), |()| mesh.components(true)),
        Call::Push => pushing(&mesh),
        Call::LoopSubdivision => changed(&|mesh| {
            mesh.loop_subdivision();
        }),
        Call::ReadScan => scan::time(case),
        Call::Face | Call::ReadPanel | Call::WritePanel | Call::CleanPanel | Call::Sheet | Call::ScanSheet => return None,
        Call::ListHems | Call::HemSheet => return None,
    })
}

fn attributes(mesh: &PolygonMesh) -> StandardAttributes {
    StandardAttributes {
        positions: mesh.positions().clone(),
        uv_coords: mesh.uv_coords().clone(),
        normals: mesh.normals().clone(),
    }
}

/// Its faces, which are there beforehand, pushed one by one.
fn pushing(mesh: &PolygonMesh) -> Duration {
    let faces: Vec<Vec<StandardVertex>> = mesh.face_iter().map(|face| face.to_vec()).collect();
    fastest(
        || (),
        |()| {
            let mut pushed: Faces = Faces::default();
            faces.iter().for_each(|face| pushed.push(face));
            pushed
        },
    )
}
