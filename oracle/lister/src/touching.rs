//! Meshes whose hems touch, for the wires: pieces and openings that meet in a point, faces that meet themselves, and where wires begin.

use crate::subjects::by_positions;
use judge::Mesh;

/// An octahedron, of which faces are left out.
const OCTAHEDRON: [&[u32]; 8] = [&[0, 2, 4], &[2, 1, 4], &[1, 3, 4], &[3, 0, 4], &[2, 0, 5], &[1, 2, 5], &[3, 1, 5], &[0, 3, 5]];

pub fn meshes() -> Vec<Mesh> {
    let by_hand: [&[&[u32]]; 10] = [
        // Two pieces, by other numbers than the document's; three and two fans at a point; two openings of one cloth.
        &[&[0, 1, 2], &[2, 3, 4], &[0, 2, 5]],
        &[&[0, 1, 2], &[0, 3, 4], &[0, 5, 6]],
        &[&[6, 0, 1], &[6, 1, 2], &[6, 4, 5], &[6, 3, 4]],
        &[&[0, 1, 2], &[0, 3, 4], &[2, 1, 4, 3]],
        // Of one start the smallest end is first; the smallest end of all is not.
        &[&[4, 0, 3], &[0, 1, 2]],
        &[&[1, 3, 2], &[4, 0, 5]],
        // Edges from a position to itself; faces that are crossed to themselves, and one that only comes back to a position.
        &[&[0, 0, 1, 1]],
        &[&[0, 0, 1, 2], &[1, 0, 3, 3]],
        &[&[0, 1, 2, 3, 1, 0, 4, 5]],
        &[&[2, 0, 2, 1, 3, 2, 4, 5]],
    ];
    let mut meshes: Vec<Mesh> = by_hand.iter().map(|faces| by_positions(faces)).collect();
    meshes.push(octahedron_without(&[0, 2]));
    meshes.push(octahedron_without(&[0, 2, 5, 7]));
    // A chessboard; two openings inside a cloth; a ring of tube with a ring of holes around it.
    meshes.push(squares([3, 3], [4, 4], |x, y| (x + y) % 2 == 0));
    meshes.push(squares([4, 4], [5, 5], |x, y| [x, y] != [1, 1] && [x, y] != [2, 2]));
    meshes.push(squares([3, 3], [3, 3], |x, y| x != y));
    meshes.push(disc_and_ring());
    meshes.iter_mut().for_each(|mesh| mesh.positions.fill(0.25));
    meshes
}

fn octahedron_without(left_out: &[usize]) -> Mesh {
    let kept: Vec<&[u32]> = (0..8).filter(|face| !left_out.contains(face)).map(|face| OCTAHEDRON[face]).collect();
    by_positions(&kept)
}

fn of(faces: &[Vec<u32>]) -> Mesh {
    let faces: Vec<&[u32]> = faces.iter().map(|face| &face[..]).collect();
    by_positions(&faces)
}

/// Those of so many squares, wide and high, that are there; over so many columns and rows of positions, past the last of which comes the first again.
fn squares([wide, high]: [u32; 2], [columns, rows]: [u32; 2], is_there: fn(u32, u32) -> bool) -> Mesh {
    let at = |x: u32, y: u32| y % rows * columns + x % columns;
    let places = (0..high).flat_map(|y| (0..wide).map(move |x| (x, y))).filter(|(x, y)| is_there(*x, *y));
    let faces: Vec<Vec<u32>> = places.map(|(x, y)| vec![at(x, y), at(x + 1, y), at(x + 1, y + 1), at(x, y + 1)]).collect();
    of(&faces)
}

/// A disc and a ring around it: three places where a hole may be between them, each touching the next. At the last there is none, and there they
/// are one cloth.
fn disc_and_ring() -> Mesh {
    let disc = |k: u32| k % 6;
    let ring = |k: u32| if [1, 3].contains(&(k % 6)) { 6 + k % 6 } else { k % 6 };
    let outer = |k: u32| 12 + k % 6;
    let mut faces: Vec<Vec<u32>> = (0..6).map(|k| vec![ring(k), outer(k), outer(k + 1), ring(k + 1)]).collect();
    faces.push((0..6).map(disc).collect());
    of(&faces)
}
