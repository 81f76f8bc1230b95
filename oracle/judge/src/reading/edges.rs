//! 'Edges, verdict and wires', but house wires, which are request 5's.

use crate::mesh::{Mesh, Verdict};
use std::collections::BTreeMap;

/// The uses of each edge, as (start, end), in face order; an edge is its lower and its higher position.
fn uses(mesh: &Mesh) -> BTreeMap<[u32; 2], Vec<[u32; 2]>> {
    let mut uses: BTreeMap<_, Vec<_>> = BTreeMap::new();
    for face in mesh.faces() {
        for i in 0..face.len() {
            let (start, end) = (face[i][0], face[(i + 1) % face.len()][0]);
            uses.entry([start.min(end), start.max(end)]).or_default().push([start, end]);
        }
    }
    uses
}

pub fn verdict(mesh: &Mesh) -> Verdict {
    let uses = uses(mesh);
    if uses.values().any(|edge| edge.len() >= 3) {
        Verdict::Irregular
    } else if uses.values().any(|edge| edge.len() == 2 && edge[0] == edge[1]) {
        Verdict::Regular
    } else if !uses.values().any(|edge| edge.len() == 1) {
        Verdict::Closed
    } else {
        Verdict::Oriented
    }
}

/// Edges used an odd number of times, with the direction of their last use, ascending by (lower, higher).
pub fn hem_edges(mesh: &Mesh) -> Vec<[u32; 2]> {
    uses(mesh).into_values().filter(|edge| edge.len() % 2 == 1).map(|edge| edge[edge.len() - 1]).collect()
}

/// The ported wires.
pub fn ported_wires(mesh: &Mesh) -> Vec<Vec<u32>> {
    let mut next: BTreeMap<u32, u32> = BTreeMap::new();
    for [start, end] in hem_edges(mesh) {
        next.insert(start, end);
    }
    let mut wires = vec![];
    while let Some(start) = next.keys().next().copied() {
        let mut wire = vec![start];
        let mut at = next.remove(&start);
        while let Some(position) = at.filter(|position| *position != start) {
            wire.push(position);
            at = next.remove(&position);
        }
        wires.push(wire);
    }
    wires
}
