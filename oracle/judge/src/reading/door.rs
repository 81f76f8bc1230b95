//! 'No broken coordinates past the door', the second request of document 02.

use crate::mesh::Mesh;

/// A position, texture point or normal that isn't finite: one of its coordinates is not a number, whatever its sign and its digits, or is
/// an infinity. A number is finite however large it is.
pub fn is_broken(coordinates: &[f64]) -> bool {
    coordinates.iter().any(|coordinate| !coordinate.is_finite())
}

/// 14 where an entry of a mesh isn't finite, whether a corner uses it or not; else 0.
pub fn number(mesh: &Mesh) -> u32 {
    if is_broken(&mesh.positions) || is_broken(&mesh.textures) || is_broken(&mesh.normals) {
        14
    } else {
        0
    }
}
