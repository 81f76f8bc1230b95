//! Faces in any order, for `push`: orders and sizes, both sides of 1, 2 and 3, and some at random. No attribute list is given with them.

use comparer::meshes;
use comparer::random::Random;
use judge::mesh::{Corner, WIDTH};
use judge::{Mesh, MISSING};

const SEED: u64 = 13;

/// The corner with this place among all corners of its faces: none is like another. One in three has no mark.
fn corner(place: u32) -> Corner {
    let texture = if place % 4 == 1 { MISSING } else { 100 + place };
    let normal = if place % 5 == 2 { MISSING } else { 200 + place };
    [place, texture, normal, if place % 3 == 0 { 0 } else { 300 + place }]
}

/// Faces of these sizes, over corners that are told apart.
fn of_sizes(sizes: &[u32]) -> Mesh {
    let corners = (0..sizes.iter().sum()).flat_map(corner).collect();
    Mesh { corners, sizes: sizes.to_vec(), ..Mesh::default() }
}

/// So many corners, all of whose numbers are 0, under these sizes, which need not add up to them.
fn dull(corners: usize, sizes: &[u32]) -> Mesh {
    Mesh { corners: vec![0; WIDTH * corners], sizes: sizes.to_vec(), ..Mesh::default() }
}

/// Every order of a triangle, a quadrangle and a larger face; what is dropped, at the front, between and at the end; where nothing is left.
pub fn orders() -> Vec<Mesh> {
    let rows: [&[u32]; 24] = [
        &[],
        &[3],
        &[4],
        &[5],
        &[3, 4, 5],
        &[3, 5, 4],
        &[4, 3, 5],
        &[4, 5, 3],
        &[5, 3, 4],
        &[5, 4, 3],
        // Each kind keeps the order in which its faces came, larger faces of several sizes too.
        &[7, 5, 6, 5],
        &[4, 3, 4, 3, 4],
        &[6, 3, 5, 4, 3, 8, 4, 3],
        // Fewer than three corners.
        &[0],
        &[1],
        &[2],
        &[2, 0, 1, 1, 0, 2],
        &[2, 3],
        &[3, 2],
        &[0, 5, 2, 4, 1, 3, 0],
        // The largest face, between small ones.
        &[3, 32, 4],
        &[31, 2, 32, 3],
        &[33, 3, 32, 4, 34],
        &[3, 300, 4],
    ];
    let mut meshes: Vec<Mesh> = rows.iter().map(|sizes| of_sizes(sizes)).collect();
    // 5 is never given: there is no list that an index could be held to.
    meshes.push(Mesh { corners: vec![MISSING; 7 * WIDTH], sizes: vec![4, 3], ..Mesh::default() });
    meshes.push(Mesh {
        corners: vec![MISSING - 1, 0x8000_0000, 0, MISSING, 1, 2, 3, 0x8000_0000, 4, 5, 6, 0],
        sizes: vec![3],
        ..Mesh::default()
    });
    meshes
}

/// For the numbers 1, 2 and 3: faces that just earn one, or just do not.
pub fn both_sides() -> Vec<Mesh> {
    let small = of_sizes(&[4, 3]);
    let mut meshes = vec![full(), dull(4_096, &[32; 128]), dull(3_900, &[300; 13]), dull(0, &[0; 1_365]), small.clone()];
    let mut with = |mesh: &Mesh, change: &dyn Fn(&mut Mesh)| {
        let mut changed = mesh.clone();
        change(&mut changed);
        meshes.push(changed);
    };
    // 1: a number over, or a corner, or a size, also where the sizes add up; before 2 and before 3.
    with(&full(), &|m| m.corners.push(0));
    with(&full(), &|m| m.sizes.push(0));
    with(&dull(4_097, &[32; 128]), &|m| m.sizes.push(1));
    with(&dull(4_097, &[32; 129]), &|_| ());
    with(&dull(4_097, &[301; 14]), &|_| ());
    with(&dull(4_096, &[300; 13]), &|m| m.sizes.push(196));
    with(&dull(4_097, &[300; 13]), &|m| m.sizes.push(197));
    with(&dull(0, &[0; 1_366]), &|_| ());
    // 2: no multiple of the width; sizes that don't add up, also where 32 bits would hide it; before 3.
    with(&small, &|m| m.corners.push(0));
    with(&small, &|m| m.corners.truncate(7 * WIDTH - 1));
    with(&small, &|m| m.corners.truncate(6 * WIDTH));
    with(&small, &|m| m.corners.extend([0; WIDTH]));
    with(&small, &|m| m.sizes.push(1));
    with(&small, &|m| m.sizes[0] = 3);
    with(&small, &|m| m.sizes.clear());
    with(&small, &|m| m.corners.clear());
    with(&small, &|m| m.sizes = vec![MISSING, 8]);
    with(&small, &|m| m.sizes = vec![0x8000_0000, 0x8000_0007]);
    with(&small, &|m| m.sizes = vec![301, 7]);
    // 3: more than 300 corners, alone, first and last.
    [32, 33, 299, 300, 301].into_iter().for_each(|n| with(&dull(n as usize, &[n]), &|_| ()));
    with(&dull(304, &[301, 3]), &|_| ());
    with(&dull(306, &[2, 3, 301]), &|_| ());
    with(&dull(4_096, &[4_096]), &|_| ());
    meshes
}

/// Both lists at their limits, and not grouped: the quadrangle stands before the last triangle. The corners of these two are told apart.
fn full() -> Mesh {
    let mut sizes = vec![3; 1_365];
    sizes[1_363] = 4;
    let mut corners = vec![0; WIDTH * 4_089];
    corners.extend((1..8).flat_map(corner));
    Mesh { corners, sizes, ..Mesh::default() }
}

/// Faces whose rooms are lent one short: some are dropped, so that the result would fit where the stated room is not there. And faces that
/// earn 1, 2 and 3, which come before 9.
pub fn for_short_rooms() -> Vec<Mesh> {
    let accepted = [of_sizes(&[4, 2, 3, 1]), of_sizes(&[5, 3, 4]), of_sizes(&[1])];
    accepted.into_iter().chain([dull(1, &[0; 1_366]), dull(4, &[3]), dull(301, &[301])]).collect()
}

/// Random faces, shuffled so that some stands before one of an earlier kind. They go by no coordinate.
pub fn at_random() -> Vec<Mesh> {
    let kind = |size: u32| size.min(5);
    let is_mixed = |mesh: &Mesh| mesh.sizes.windows(2).any(|pair| kind(pair[0]) > kind(pair[1]));
    let faces = |index: u64| {
        let random = Random::of(SEED, index);
        let mesh = meshes::random(&random).mesh;
        let Mesh { corners, sizes, .. } = meshes::any_order(&random, &mesh);
        Mesh { corners, sizes, ..Mesh::default() }
    };
    (0..).map(faces).filter(|mesh| (40..200).contains(&mesh.corners.len()) && is_mixed(mesh)).take(12).collect()
}
