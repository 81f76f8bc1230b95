//! House wires: request 5 of document 02.

use super::edges::hem_edges;
use crate::mesh::{Corner, Mesh};
use std::collections::{BTreeMap, BTreeSet};

/// The start and the end of an edge, in the direction in which a face uses it. Where the verdict is Oriented or Closed no step is made twice: it
/// says which face it is of, and where in it.
type Step = [u32; 2];

/// For each step of a face the next one of that face.
fn next_in_face(mesh: &Mesh) -> BTreeMap<Step, Step> {
    let step = |face: &[Corner], i: usize| [face[i % face.len()][0], face[(i + 1) % face.len()][0]];
    let mut next = BTreeMap::new();
    for face in mesh.faces() {
        next.extend((0..face.len()).map(|i| (step(&face, i), step(&face, i + 1))));
    }
    next
}

/// The house wires of a mesh that is Oriented or Closed.
pub fn house_wires(mesh: &Mesh) -> Vec<Vec<u32>> {
    let next = next_in_face(mesh);
    let hems: BTreeSet<Step> = hem_edges(mesh).into_iter().collect();
    // The next edge of the face that owns the arriving one; while that is no hem edge, the next one of the face that uses it the other way.
    let following = |arriving: Step| {
        let mut edge = next[&arriving];
        while !hems.contains(&edge) {
            edge = next[&[edge[1], edge[0]]];
        }
        edge
    };
    // Ascending, so that the first one left has the smallest start, and of these the smallest end.
    let mut unused = hems.clone();
    let mut wires = vec![];
    while let Some(first) = unused.iter().next().copied() {
        let (mut wire, mut edge) = (vec![], first);
        while wire.is_empty() || edge != first {
            unused.remove(&edge);
            wire.push(edge[0]);
            edge = following(edge);
        }
        wires.push(wire);
    }
    wires
}
