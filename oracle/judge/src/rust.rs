//! What the Rust answers: untouched, and in the copy whose maps and sets are read in ascending order.
//!
//! The Rust checks less than document 01 asks, and panics where document 01 refuses; so it is asked only where the question is accepted.
//! Its corners are three numbers. It is handed the first three of ours, and the marks are carried beside it (request 11 of document 02): where corners
//! move, it is asked once more about corners that are told apart.

use crate::calls::{Answer, Call, Question};
use crate::mesh::{Compacted, Merged, Mesh, Pushed, Smoothed, Unfolded, Verdict, INDICES, MISSING, WIDTH};
use crate::reading::smoothing::COSINES;
use std::f64::consts::PI;
use truck_polymesh::{Faces, Point3, PolygonMesh, StandardAttributes, StandardVertex, Vector2, Vector3};

pub mod untouched {
    use super::*;
    use truck_meshalgo::{analyzers::*, filters::*};
    include!("rust_calls.rs");

    /// What the untouched Rust answers, of all that does not rest on the order in which its maps are read.
    pub fn answer(call: Call, question: &Question) -> Option<Answer> {
        match call {
            Call::PutTogetherSameAttrs | Call::ExtractBoundaries => None,
            _ => answered(call, question),
        }
    }
}

pub mod ascending {
    use super::*;
    use truck_meshalgo_ascending::{analyzers::*, filters::*};
    include!("rust_calls.rs");

    /// What the ascending Rust answers.
    pub fn answer(call: Call, question: &Question) -> Option<Answer> {
        answered(call, question)
    }
}

/// The cosines as the Rust computes them where it smooths, of pi/n and of 2·pi/n, n from 1 on: while it runs, as the Rust does, and not by the
/// compiler, which may have another cosine.
pub fn cosines() -> [Vec<f64>; 2] {
    let counts: Vec<usize> = (1..=COSINES).collect();
    // Safety: what is read is there.
    let count = |n: &usize| unsafe { std::ptr::read_volatile(n) };
    [
        counts.iter().map(|n| f64::cos(PI / count(n) as f64)).collect(),
        counts.iter().map(|n| f64::cos(2.0 * PI / count(n) as f64)).collect(),
    ]
}

/// Whether the cosines of a question are those that the Rust would take.
pub fn has_its_cosines(question: &Question) -> bool {
    let bits = |list: &[f64]| list.iter().map(|x| x.to_bits()).collect::<Vec<_>>();
    cosines().map(|list| bits(&list)) == [bits(&question.ones), bits(&question.twos)]
}

/// The product's lists as the Rust's mesh; none where the Rust finds an index out of range.
pub fn into_rust(mesh: &Mesh) -> Option<PolygonMesh> {
    let attributes = StandardAttributes {
        positions: mesh.positions.chunks(3).map(|p| Point3::new(p[0], p[1], p[2])).collect(),
        uv_coords: mesh.textures.chunks(2).map(|p| Vector2::new(p[0], p[1])).collect(),
        normals: mesh.normals.chunks(3).map(|p| Vector3::new(p[0], p[1], p[2])).collect(),
    };
    PolygonMesh::try_new(attributes, pushed(mesh)).ok()
}

/// The faces, in the order given, pushed one by one.
fn pushed(mesh: &Mesh) -> Faces {
    let index = |number: u32| if number == MISSING { None } else { Some(number as usize) };
    let mut pushed = Faces::default();
    for face in mesh.faces() {
        let corners: Vec<StandardVertex> =
            face.iter().map(|c| StandardVertex { pos: c[0] as usize, uv: index(c[1]), nor: index(c[2]) }).collect();
        pushed.push(&corners);
    }
    pushed
}

/// The same faces, told apart: corner k has texture point k. There may be more of these than a mesh of ours may have; the Rust has no limits.
fn told_apart(mesh: &Mesh) -> Mesh {
    let mut corners = mesh.corners.clone();
    (0..).zip(corners.chunks_mut(WIDTH)).for_each(|(number, corner)| corner[1] = number);
    Mesh { textures: vec![0.0; 2 * mesh.corner_count()], corners, ..mesh.clone() }
}

/// Which corner of the faces that were told apart each corner of the result is; none where it is a new one. Where the result is not like `made`, the
/// result of the same call on the faces as they are, but for texture points, there are none at all: that is a difference.
fn taken(faces: &Faces, made: &[u32], expected: &[u32]) -> Vec<Option<usize>> {
    let is_alike = without_textures(&flat_corners(faces)) == without_textures(made) && sizes(faces) == expected;
    faces.face_iter().flatten().filter(|_| is_alike).map(|corner| corner.uv).collect()
}

/// The corners of the Rust with the marks of those that they are; a new one has 0.
fn with_marks(mesh: &Mesh, made: &[u32], taken: &[Option<usize>]) -> Vec<u32> {
    let marks: Vec<u32> = mesh.marks().collect();
    let mark = |corner: &Option<usize>| corner.map_or(0, |corner| marks[corner]);
    made.chunks(INDICES).zip(taken).flat_map(|(corner, taken)| [corner[0], corner[1], corner[2], mark(taken)]).collect()
}

/// The corners of the Rust where none moves, each with the mark that it had.
fn with_marks_kept(mesh: &Mesh, made: &[u32]) -> Vec<u32> {
    let all: Vec<Option<usize>> = (0..mesh.corner_count()).map(Some).collect();
    with_marks(mesh, made, &all)
}

/// The face that the corners of each result face came from; missing, which is no face, where they came from several.
fn origins(mesh: &Mesh, taken: &[Option<usize>], sizes: &[u32]) -> Vec<u32> {
    let face_of: Vec<u32> = (0..).zip(&mesh.sizes).flat_map(|(face, size)| vec![face; *size as usize]).collect();
    let mut rest = taken.iter().map(|corner| corner.map_or(MISSING, |corner| face_of[corner]));
    let origin = |size: &u32| {
        let faces: Vec<u32> = rest.by_ref().take(*size as usize).collect();
        faces.first().copied().filter(|first| faces.iter().all(|face| face == first)).unwrap_or(MISSING)
    };
    sizes.iter().map(origin).collect()
}

fn sizes(faces: &Faces) -> Vec<u32> {
    faces.face_iter().map(|face| face.len() as u32).collect()
}

/// The corners without their texture points.
fn without_textures(corners: &[u32]) -> Vec<[u32; 2]> {
    corners.chunks(INDICES).map(|corner| [corner[0], corner[2]]).collect()
}

/// Three numbers to a corner, as the Rust has them.
fn flat_corners(faces: &Faces) -> Vec<u32> {
    let number = |index: Option<usize>| index.map_or(MISSING, |i| i as u32);
    faces.face_iter().flatten().flat_map(|v| [v.pos as u32, number(v.uv), number(v.nor)]).collect()
}

fn narrow(rows: Vec<Vec<usize>>) -> Vec<Vec<u32>> {
    rows.into_iter().map(|row| row.into_iter().map(|number| number as u32).collect()).collect()
}
