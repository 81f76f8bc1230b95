//! The meshes that the list is about: the document's examples, both sides of every limit of the table, and some at random.

use comparer::meshes::{self, Case};
use comparer::random::Random;
use judge::mesh::{Corner, WIDTH};
use judge::reading::{self, numbers::mesh_number};
use judge::{Call, Mesh, Question, MISSING};

const SEED: u64 = 8;

/// Faces by positions alone, over as many positions as are named, all of them apart.
pub fn by_positions(faces: &[&[u32]]) -> Mesh {
    let count = faces.iter().flat_map(|face| face.iter()).max().map_or(0, |most| most + 1);
    let faces: Vec<Vec<Corner>> = faces.iter().map(|face| face.iter().map(|p| [*p, MISSING, MISSING, 0]).collect()).collect();
    Mesh { positions: (0..3 * count).map(|i| i as f64).collect(), ..Mesh::default() }.with_faces(&faces)
}

/// Faces whose corners have texture points and normals of their own: each corner's texture point is its place in the mesh.
pub fn furnished(faces: &[&[u32]]) -> Mesh {
    let mut mesh = by_positions(faces);
    let corners = mesh.corner_count();
    mesh.textures = (0..2 * corners).map(|i| i as f64 * 0.5).collect();
    mesh.normals = (0..9).map(|i| i as f64 * -0.25).collect();
    for corner in 0..corners {
        mesh.corners[WIDTH * corner + 1] = corner as u32;
        mesh.corners[WIDTH * corner + 2] = [0, 1, 2, MISSING][corner % 4];
    }
    mesh
}

/// The examples of document 01, 10 and 11 apart, and what else shows a rule at its smallest.
pub fn examples() -> Vec<Mesh> {
    let faces: [&[&[u32]]; 20] = [
        &[],
        &[&[0, 1, 2]],
        &[&[0, 1, 2], &[0, 1, 3]],
        &[&[0, 1, 2], &[1, 0, 3], &[0, 1, 4]],
        &[&[0, 1, 2], &[0, 1, 4], &[1, 0, 3]],
        &[&[0, 1, 1, 2]],
        &[&[0, 1, 0, 2]],
        &[&[0, 1, 2, 1, 3]],
        &[&[0, 1, 2, 0, 3, 4]],
        &[&[5, 2, 4]],
        &[&[0, 1, 4], &[1, 2, 3]],
        // A closed shape; a face and its back; a self-edge; two hem edges with one start; three folds in one ring.
        &[&[0, 1, 2], &[0, 2, 3], &[0, 3, 1], &[1, 3, 2]],
        &[&[0, 1, 2], &[2, 1, 0]],
        &[&[0, 0, 0]],
        &[&[1, 2, 0, 0]],
        &[&[0, 0, 1, 1, 2, 2, 3]],
        // Each way of the quadrangle.
        &[&[0, 0, 1, 2], &[0, 1, 2, 2], &[2, 0, 1, 2], &[0, 0, 1, 1], &[0, 1, 1, 0], &[0, 1, 2, 1], &[0, 1, 2, 3]],
        // Faces of three sizes, of which some are folded.
        &[&[0, 1, 1], &[0, 1, 2], &[0, 1, 2, 3], &[3, 2, 2, 4], &[0, 1, 2, 3, 4], &[4, 3, 2, 4, 1, 0]],
        // Two panels, one of them a ring of three triangles; a fan whose middle is a hem's too.
        &[&[0, 1, 2], &[2, 1, 3], &[3, 1, 0], &[4, 5, 6]],
        &[&[0, 1, 2], &[0, 3, 4], &[0, 5, 6], &[0, 2, 3]],
    ];
    faces.iter().map(|faces| furnished(faces)).collect()
}

/// For the numbers 1 to 5: meshes that are accepted, and each with one thing changed that just earns a number, or just does not.
pub fn both_sides() -> Vec<Mesh> {
    let full = full();
    let small = dull(furnished(&[&[0, 1, 2], &[3, 2, 1, 0], &[0, 1, 2, 3, 4]]));
    let mut meshes = vec![full.clone(), small.clone()];
    let mut with = |mesh: &Mesh, change: &dyn Fn(&mut Mesh)| {
        let mut changed = mesh.clone();
        change(&mut changed);
        meshes.push(changed);
    };
    // 1: one number over, in each list.
    with(&full, &|m| m.positions.push(0.0));
    with(&full, &|m| m.textures.push(0.0));
    with(&full, &|m| m.normals.push(0.0));
    with(&full, &|m| m.corners.push(0));
    with(&full, &|m| m.sizes.insert(0, 3));
    // 2: no multiple of the width; sizes that don't add up, also where 32 bits would hide it.
    with(&small, &|m| m.positions.push(0.5));
    with(&small, &|m| m.positions.truncate(13));
    with(&small, &|m| m.textures.push(0.5));
    with(&small, &|m| m.normals.push(0.5));
    with(&small, &|m| m.normals.truncate(8));
    with(&small, &|m| m.corners.push(0));
    with(&small, &|m| m.corners.truncate(11 * WIDTH));
    with(&small, &|m| m.sizes[2] = 6);
    with(&small, &|m| m.sizes = vec![MISSING, 13]);
    with(&small, &|m| m.sizes.clear());
    // 3: sizes 2, 0, 301 and far beyond; 3, 32, 33, 299 and 300 are accepted.
    with(&small, &|m| m.sizes = vec![2, 10]);
    with(&small, &|m| m.sizes = vec![0, 3, 4, 5]);
    with(&ring(33), &|_| ());
    with(&ring(32), &|_| ());
    with(&ring(31), &|m| m.sizes = vec![3, 28]);
    with(&folded_ring(299), &|_| ());
    with(&ring(300), &|_| ());
    with(&folded_ring(301), &|_| ());
    with(&folded_ring(304), &|m| m.sizes = vec![3, 301]);
    with(&folded_ring(556), &|_| ());
    // 4: not grouped; among larger faces any order goes.
    with(&small, &|m| m.sizes = vec![4, 3, 5]);
    with(&small, &|m| m.sizes = vec![3, 5, 4]);
    with(&small, &|m| m.sizes = vec![5, 3, 4]);
    with(&small, &|m| m.sizes = vec![6, 3, 3]);
    with(&small, &|m| m.sizes = vec![7, 5]);
    with(&small, &|m| m.sizes = vec![4, 4, 4]);
    // 5: at its list's count and one below, missing, far beyond, in the first and in the last corner.
    with(&small, &|m| m.corners[11 * WIDTH] = 5);
    with(&small, &|m| m.corners[0] = MISSING);
    with(&small, &|m| m.corners[0] = MISSING - 1);
    with(&small, &|m| m.corners[11 * WIDTH + 1] = 12);
    with(&small, &|m| m.corners[1] = 0x8000_0000);
    with(&small, &|m| m.corners[11 * WIDTH + 1] = MISSING);
    with(&small, &|m| m.corners[11 * WIDTH + 2] = 3);
    with(&small, &|m| m.corners[2] = MISSING - 1);
    with(&small, &|m| m.corners[11 * WIDTH + 2] = 2);
    meshes
}

/// The same with all coordinates of a list equal, where they do not matter: they take few words then.
fn dull(mut mesh: Mesh) -> Mesh {
    mesh.positions.fill(0.25);
    mesh.textures.fill(-0.0);
    mesh.normals.fill(1.5);
    mesh
}

/// Every list at its limit: all coordinates 0, all corners the first position.
fn full() -> Mesh {
    let mut sizes = vec![3; 1_365];
    sizes[1_364] = 4;
    Mesh {
        positions: vec![0.0; 3 * 2_048],
        textures: vec![0.0; 2 * 2_048],
        normals: vec![0.0; 3 * 2_048],
        corners: vec![0; WIDTH * 4_096],
        sizes,
    }
}

/// One face with so many corners.
pub fn ring(corners: usize) -> Mesh {
    let positions = vec![0.25; 3 * corners];
    let faces = [(0..corners as u32).map(|i| [i, MISSING, MISSING, 0]).collect()];
    Mesh { positions, ..Mesh::default() }.with_faces(&faces)
}

/// One face with so many corners, all of them one.
fn folded_ring(corners: usize) -> Mesh {
    Mesh { positions: vec![0.25; 3], textures: vec![0.5; 2], normals: vec![1.5; 3], ..Mesh::default() }
        .with_faces(&[vec![[0; WIDTH]; corners]])
}

/// Whether a tolerance is the same on every machine: the others are made with logarithms, whose last bit is the machine's own affair, and
/// the coordinates go by them.
pub fn is_plain(tolerance: f64) -> bool {
    tolerance.to_bits() as u32 == 0 || [0.1, 0.3, 1e-6, 1e-3].contains(&tolerance)
}

/// Random meshes that are accepted: for each verdict so many small ones, and some larger ones.
pub fn at_random() -> Vec<Case> {
    let mut wanted = [6, 5, 7, 4];
    let mut larger = 2;
    let mut cases = vec![];
    for index in 0.. {
        if wanted.iter().sum::<usize>() + larger == 0 {
            break;
        }
        let case = meshes::random(&Random::of(SEED, index));
        let (mesh, size) = (&case.mesh, size(&case.mesh));
        if mesh_number(mesh) != 0 || mesh.sizes.len() < 2 || !is_plain(case.tolerance) {
            continue;
        }
        let verdict = reading::edges::verdict(mesh) as usize;
        if size <= 180 && wanted[verdict] > 0 {
            wanted[verdict] -= 1;
            cases.push(case);
        } else if (500..900).contains(&size) && larger > 0 && mesh.sizes.len() > 30 {
            larger -= 1;
            cases.push(case);
        }
    }
    cases
}

/// Random meshes with a tolerance at which indices change: so many of them in each of the three columns.
pub fn that_merge() -> Vec<Case> {
    let mut wanted = [6usize; 3];
    let mut cases = vec![];
    for index in 0.. {
        if wanted == [0; 3] {
            break;
        }
        let case = meshes::random(&Random::of(SEED + 1, index));
        if size(&case.mesh) > 160 || mesh_number(&case.mesh) != 0 || !is_plain(case.tolerance) {
            continue;
        }
        let columns = changed_columns(&case);
        if (0..3).any(|column| wanted[column] > 0 && columns[column]) {
            (0..3).filter(|column| columns[*column]).for_each(|column| wanted[column] = wanted[column].saturating_sub(1));
            cases.push(case);
        }
    }
    cases
}

/// In which columns merging changes an index. (It changes no mark.)
fn changed_columns(case: &Case) -> [bool; 3] {
    let Case { mesh, tolerance } = case;
    let rooms = vec![mesh.corners.len()];
    let answer = reading::answer(
        Call::PutTogetherSameAttrs,
        &Question { mesh: mesh.clone(), tolerance: *tolerance, rooms, ..Question::default() },
    );
    let mut columns = [false; 3];
    if let judge::Numbers::Words(corners) = &answer.lists[0] {
        for (place, (new, old)) in corners.iter().zip(&mesh.corners).enumerate() {
            columns[place % WIDTH % 3] |= new != old;
        }
    }
    columns
}

/// About how many words of the list a mesh takes.
fn size(mesh: &Mesh) -> usize {
    2 * (mesh.positions.len() + mesh.textures.len() + mesh.normals.len()) + mesh.corners.len() + mesh.sizes.len()
}
