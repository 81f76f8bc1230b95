//! Scans: the file that a mesh of triangles makes, and a reading of it as a Rust program would have it, by a hash map; ours is held to it.

use crate::shapes::Case;
use crate::time::fastest;
use judge::mesh::WIDTH;
use judge::{Mesh, MISSING};
use rustc_hash::FxHashMap;
use std::time::Duration;

const FRONT: usize = 84;
const TRIANGLE: usize = 50;

/// A binary STL file of the triangles of a mesh; normals are zero.
pub fn file(mesh: &Mesh) -> Vec<u8> {
    let mut file = vec![0; FRONT - 4];
    file.extend((mesh.sizes.len() as u32).to_le_bytes());
    for face in mesh.corners.chunks(3 * WIDTH) {
        file.extend([0; 12]);
        let places = face.iter().step_by(WIDTH).map(|position| 3 * *position as usize);
        let coordinates = places.flat_map(|place| &mesh.positions[place..place + 3]);
        file.extend(coordinates.flat_map(|x| (*x as f32).to_le_bytes()));
        file.extend([0; 2]);
    }
    file
}

/// The mesh of a scan; none where its length is not what its count asks, or a point is not finite. Points are looked up by their bits in the kind
/// of map that the Rust has everywhere.
pub fn read(file: &[u8]) -> Option<Mesh> {
    let count = u32::from_le_bytes(file.get(FRONT - 4..FRONT)?.try_into().unwrap()) as usize;
    if file.len() != FRONT + TRIANGLE * count {
        return None;
    }
    let mut numbers: FxHashMap<[u32; 3], u32> = FxHashMap::default();
    let mut mesh = Mesh { corners: Vec::with_capacity(3 * WIDTH * count), sizes: vec![3; count], ..Mesh::default() };
    for triangle in file[FRONT..].chunks_exact(TRIANGLE) {
        for point in triangle[12..48].chunks_exact(12) {
            let coordinate = |at: usize| f32::from_le_bytes(point[at..at + 4].try_into().unwrap()) + 0.0;
            let place = [coordinate(0), coordinate(4), coordinate(8)];
            if place.iter().any(|x| !x.is_finite()) {
                return None;
            }
            let next = numbers.len() as u32;
            let number = *numbers.entry(place.map(f32::to_bits)).or_insert(next);
            if number == next {
                mesh.positions.extend(place.map(f64::from));
            }
            mesh.corners.extend([number, MISSING, MISSING, 0]);
        }
    }
    Some(mesh)
}

/// How long that takes.
pub fn time(case: &Case) -> Duration {
    let file = file(&case.mesh);
    fastest(|| (), |()| read(&file))
}
