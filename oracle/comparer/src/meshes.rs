//! Meshes: every small one, and random ones of every size up to the limits.

use crate::random::Random;
use crate::{coordinates, damage, marks, pinched, round, shapes};
use judge::mesh::Corner;
use judge::reading::numbers::mesh_number;
use judge::{Mesh, MISSING};

/// A mesh and the tolerance that its coordinates were made for.
#[derive(Default)]
pub struct Case {
    pub mesh: Mesh,
    pub tolerance: f64,
}

/// The shapes that are gone through one by one: how many corners a face has, how many positions there are, how many faces.
const EXHAUSTIVE: [(usize, usize, usize); 8] =
    [(3, 4, 0), (3, 4, 1), (3, 4, 2), (3, 4, 3), (4, 4, 1), (5, 5, 1), (6, 6, 1), (3, 5, 2)];

fn variants((corners, positions, faces): (usize, usize, usize)) -> u64 {
    (positions as u64).pow((corners * faces) as u32)
}

/// How many meshes `exhaustive` has.
pub fn exhaustive_count() -> u64 {
    EXHAUSTIVE.iter().map(|shape| variants(*shape)).sum()
}

/// Up to three triangles over four positions, single faces of 4 to 6 corners over that many positions, and two triangles over five positions: the
/// one with this index. A corner's texture point is its place in its face; its normal and its mark go by the seed.
pub fn exhaustive(index: u64, random: &Random) -> Case {
    let (mut shape, mut left) = (EXHAUSTIVE[0], index);
    for next in EXHAUSTIVE {
        shape = next;
        if left < variants(shape) {
            break;
        }
        left -= variants(shape);
    }
    let (corners, positions, faces) = shape;
    let mut corner = |place: usize| -> Corner {
        let position = (left % positions as u64) as u32;
        left /= positions as u64;
        [position, place as u32, random.pick(&[0, 1, 2, MISSING]), marks::one(random)]
    };
    let faces: Vec<Vec<Corner>> = (0..faces).map(|_| (0..corners).map(&mut corner).collect()).collect();
    let mesh = Mesh {
        positions: coordinates::list(random, positions, 3, 0.25),
        textures: coordinates::list(random, 6, 2, 0.5),
        normals: coordinates::list(random, 3, 3, 0.5),
        ..Mesh::default()
    };
    Case { mesh: mesh.with_faces(&faces), tolerance: 0.5 }
}

/// A random mesh: most are small, few are at the limits, some are damaged.
pub fn random(random: &Random) -> Case {
    let tolerance = coordinates::tolerance(random);
    let corners = corners(random);
    let (faces, positions) = shapes::faces(random, corners);
    furnished(random, faces, positions, tolerance, 4)
}

/// A random mesh whose hems touch: nearly all are Oriented or Closed, and few are damaged.
pub fn with_touching_hems(random: &Random) -> Case {
    let tolerance = coordinates::tolerance(random);
    let corners = corners(random).max(6);
    let (faces, positions) = pinched::faces(random, corners);
    furnished(random, faces, positions, tolerance, 16)
}

/// A random mesh with faces of more than 32 corners, folded or not.
pub fn with_large_faces(random: &Random) -> Case {
    let tolerance = coordinates::tolerance(random);
    let (faces, positions) = round::faces(random);
    furnished(random, faces, positions, tolerance, 6)
}

/// Faces by positions, with coordinates, texture points, normals and marks; one mesh in so many is damaged.
fn furnished(random: &Random, faces: Vec<Vec<u32>>, positions: usize, tolerance: f64, damaged: usize) -> Case {
    let mut mesh = Mesh {
        positions: coordinates::list(random, with_unused(random, positions), 3, tolerance * random_half(random)),
        ..Mesh::default()
    };
    let (textures, texture_column) = column(random, &faces);
    let (normals, normal_column) = column(random, &faces);
    mesh.textures = coordinates::list(random, textures, 2, tolerance);
    mesh.normals = coordinates::list(random, normals, 3, tolerance);
    let mut corner = 0;
    let mut faces: Vec<Vec<Corner>> = faces
        .iter()
        .map(|face| {
            face.iter()
                .map(|position| {
                    corner += 1;
                    [*position, texture_column[corner - 1], normal_column[corner - 1], 0]
                })
                .collect()
        })
        .collect();
    faces.sort_by_key(|face| face.len().min(5));
    marks::put(random, &mut faces);
    let mut mesh = mesh.with_faces(&faces);
    if random.once_in(damaged) {
        damage::mesh(random, &mut mesh);
    }
    Case { mesh, tolerance }
}

/// Its points moved to the borders of cells. Positions are scaled before they are merged: in a box of at most 1 their cells are half as wide.
pub fn to_borders(random: &Random, case: &mut Case) {
    let (mesh, tolerance) = (&mut case.mesh, case.tolerance);
    if !(2f64.powi(-30)..=1.0).contains(&tolerance) {
        return;
    }
    mesh.positions = coordinates::at_borders(random, mesh.positions.len() / 3, 3, tolerance * random.pick(&[0.5, 0.5, 1.0]));
    mesh.textures = coordinates::at_borders(random, mesh.textures.len() / 2, 2, tolerance);
    mesh.normals = coordinates::at_borders(random, mesh.normals.len() / 3, 3, tolerance);
}

/// The same mesh with its faces in any order, now and then with faces of fewer than three corners between them, and one of 32, 33, 300 or 301.
pub fn any_order(random: &Random, mesh: &Mesh) -> Mesh {
    if [1, 2].contains(&mesh_number(mesh)) {
        return mesh.clone();
    }
    let mut faces = mesh.faces();
    random.shuffle(&mut faces);
    let more = if random.once_in(2) { random.below(4) } else { 0 };
    for _ in 0..more {
        let corners = if random.once_in(12) { random.pick(&[32, 33, 300, 301]) } else { random.below(3) };
        faces.insert(random.below(faces.len() + 1), vec![[random.below(5) as u32, MISSING, 0, marks::one(random)]; corners]);
    }
    mesh.with_faces(&faces)
}

/// How many corners to aim at.
fn corners(random: &Random) -> usize {
    match random.below(1_000) {
        0..=799 => random.within(0, 24),
        800..=969 => random.within(18, 100),
        970..=995 => random.within(80, 600),
        996..=998 => random.within(600, 4_096),
        _ => random.pick(&[4_095, 4_096]),
    }
}

/// Positions are scaled to twice their size where their box is small.
fn random_half(random: &Random) -> f64 {
    random.pick(&[0.5, 0.5, 0.5, 1.0])
}

/// So many entries, or some more that no corner uses.
fn with_unused(random: &Random, used: usize) -> usize {
    let more = match random.below(6) {
        0 => random.below(4),
        1 => random.below(20),
        2 if random.once_in(50) => 2_048,
        _ => 0,
    };
    (used + more).min(2_048)
}

/// The indices of one column, for every corner, and how many entries its list has.
pub fn column(random: &Random, faces: &[Vec<u32>]) -> (usize, Vec<u32>) {
    let corners: usize = faces.iter().map(|face| face.len()).sum();
    let (style, few) = (random.below(6), random.within(1, 4));
    let missing = random.pick(&[2, 5, 20, usize::MAX]);
    let entries = match style {
        0 => 0,
        1 => few,
        2 => random.within(1, corners.clamp(1, 2_048)),
        _ => corners.clamp(1, 2_048),
    };
    let flat = faces.iter().flatten();
    let indices = flat.enumerate().map(|(corner, position)| match style {
        0 => MISSING,
        _ if random.once_in(missing) => MISSING,
        3 => (corner % entries) as u32,
        4 => (*position as usize % entries) as u32,
        _ => random.below(entries) as u32,
    });
    let indices = indices.collect();
    (with_unused(random, entries), indices)
}
