//! 'Compaction' and 'Folded faces', with CR 3 of document 02, and the two after each other, which is cleaning. Marks go with their corners.

use crate::mesh::{Compacted, Corner, Mesh, Pushed, Unfolded, MISSING, WIDTH};
use std::collections::BTreeMap;

/// Folded faces are removed, then unused entries.
pub fn cleaned(mesh: Mesh) -> Mesh {
    let unfolded = remove_degenerate_faces(&mesh);
    let mesh = Mesh { corners: unfolded.corners, sizes: unfolded.sizes, ..mesh };
    let compacted = remove_unused_attrs(&mesh);
    Mesh {
        positions: compacted.positions,
        textures: compacted.textures,
        normals: compacted.normals,
        corners: compacted.corners,
        sizes: mesh.sizes,
    }
}

/// Each list is renumbered by first use; the new list holds the old entries in that order. A mark is no index and stays.
pub fn remove_unused_attrs(mesh: &Mesh) -> Compacted {
    let (positions, old_positions) = renumbered(mesh, 0);
    let (textures, old_textures) = renumbered(mesh, 1);
    let (normals, old_normals) = renumbered(mesh, 2);
    let columns = [positions, textures, normals, mesh.marks().collect()];
    Compacted {
        corners: (0..mesh.corners.len()).map(|i| columns[i % WIDTH][i / WIDTH]).collect(),
        positions: entries(&mesh.positions, 3, &old_positions),
        textures: entries(&mesh.textures, 2, &old_textures),
        normals: entries(&mesh.normals, 3, &old_normals),
    }
}

/// One column of the corners after renumbering, and which old entry each new one was.
fn renumbered(mesh: &Mesh, column: usize) -> (Vec<u32>, Vec<u32>) {
    let mut new_of: BTreeMap<u32, u32> = BTreeMap::from([(MISSING, MISSING)]);
    let mut old: Vec<u32> = vec![];
    let mut new = vec![];
    for corner in mesh.corners.chunks(WIDTH) {
        let index = corner[column];
        if !new_of.contains_key(&index) {
            new_of.insert(index, old.len() as u32);
            old.push(index);
        }
        new.push(new_of[&index]);
    }
    (new, old)
}

fn entries(list: &[f64], width: usize, which: &[u32]) -> Vec<f64> {
    which.iter().flat_map(|i| &list[*i as usize * width..][..width]).copied().collect()
}

/// Faces in any order, grouped as `push` does.
pub fn push(mesh: &Mesh) -> Pushed {
    let mesh = Mesh::default().with_faces(&grouped(mesh.faces()));
    Pushed { corners: mesh.corners, sizes: mesh.sizes }
}

/// Folded faces go or are split; the results are grouped as `push` does, each with the number of the face it came from.
pub fn remove_degenerate_faces(mesh: &Mesh) -> Unfolded {
    unfolded_by(mesh, ring)
}

/// The same with any way to split a larger face.
pub fn unfolded_by(mesh: &Mesh, ring: fn(Vec<Corner>) -> Vec<Vec<Corner>>) -> Unfolded {
    let mut pieces: Vec<(u32, Vec<Corner>)> = vec![];
    for (number, face) in mesh.faces().into_iter().enumerate() {
        let left = match face.len() {
            3 => triangle(face),
            4 => quadrangle(face),
            _ => ring(face),
        };
        pieces.extend(left.into_iter().map(|piece| (number as u32, piece)));
    }
    let (origins, faces): (Vec<u32>, Vec<Vec<Corner>>) = grouped_by(pieces, |(_, piece)| piece.len()).into_iter().unzip();
    let mesh = Mesh::default().with_faces(&faces);
    Unfolded { corners: mesh.corners, sizes: mesh.sizes, origins }
}

/// A folded triangle goes.
fn triangle(t: Vec<Corner>) -> Vec<Vec<Corner>> {
    let same = |a: usize, b: usize| t[a][0] == t[b][0];
    if same(0, 1) || same(0, 2) || same(1, 2) {
        vec![]
    } else {
        vec![t]
    }
}

/// A quadrangle goes, becomes a triangle or stays.
fn quadrangle(q: Vec<Corner>) -> Vec<Vec<Corner>> {
    let same = |a: usize, b: usize| q[a][0] == q[b][0];
    if same(0, 2) || same(1, 3) || (same(0, 1) && same(2, 3)) || (same(1, 2) && same(3, 0)) {
        vec![]
    } else if same(0, 1) || same(1, 2) {
        vec![vec![q[0], q[2], q[3]]]
    } else if same(2, 3) || same(3, 0) {
        vec![vec![q[0], q[1], q[2]]]
    } else {
        vec![q]
    }
}

/// A larger face is cut in two rings at the first pair of equal positions, and each ring again.
fn ring(r: Vec<Corner>) -> Vec<Vec<Corner>> {
    let pairs = (0..r.len()).flat_map(|i| (i + 1..r.len()).map(move |j| (i, j)));
    let mut equal = pairs.filter(|(i, j)| r[*i][0] == r[*j][0]);
    match equal.next() {
        None => vec![r],
        Some((i, j)) => {
            let one = r[i..j].to_vec();
            let other = [&r[j..], &r[..i]].concat();
            [ring(one), ring(other)].concat()
        }
    }
}

/// As `push` does: triangles, then quadrangles, then larger faces, each in the order in which they came; fewer than three corners vanish.
pub fn grouped(faces: Vec<Vec<Corner>>) -> Vec<Vec<Corner>> {
    grouped_by(faces, |face| face.len())
}

/// The same of faces that come with something beside their corners.
fn grouped_by<Face: Clone>(faces: Vec<Face>, corners: fn(&Face) -> usize) -> Vec<Face> {
    let of = |sizes: std::ops::RangeInclusive<usize>| faces.iter().filter(move |face| sizes.contains(&corners(face))).cloned();
    of(3..=3).chain(of(4..=4)).chain(of(5..=usize::MAX)).collect()
}
