//! 'Compact without a second list', request 12 of document 02. What it leaves is said here by the mesh it is given, and not by rounds: how entries come
//! to their places is the product's affair.

use crate::mesh::{Mesh, Moved, MISSING, WIDTH};

/// How many numbers an entry of each list has.
const WIDTHS: [usize; 3] = [3, 2, 3];

/// How many entries the longest list has: the number list has one for each.
pub fn longest(mesh: &Mesh) -> usize {
    lists(mesh).iter().zip(WIDTHS).map(|(list, width)| list.len() / width).max().unwrap()
}

fn lists(mesh: &Mesh) -> [&Vec<f64>; 3] {
    [&mesh.positions, &mesh.textures, &mesh.normals]
}

/// The first entries are those that are used, by first use; all freed room behind them is zero bits. Corners are renumbered where they stand, marks are
/// no indices, and the stated entries of the number list hold zeros.
pub fn compact(mesh: &Mesh) -> Moved {
    let mut corners = mesh.corners.clone();
    let mut kept = vec![];
    for (column, (list, width)) in lists(mesh).into_iter().zip(WIDTHS).enumerate() {
        let used = first_uses(mesh, column);
        let mut places = vec![MISSING; list.len() / width];
        used.iter().enumerate().for_each(|(place, entry)| places[*entry as usize] = place as u32);
        for corner in corners.chunks_mut(WIDTH).filter(|corner| corner[column] != MISSING) {
            corner[column] = places[corner[column] as usize];
        }
        kept.push((in_room_of(list, width, &used), used.len()));
    }
    let counts = [kept[0].1, kept[1].1, kept[2].1];
    let [positions, textures, normals]: [Vec<f64>; 3] =
        kept.into_iter().map(|(list, _)| list).collect::<Vec<_>>().try_into().unwrap();
    let moved = Mesh { positions, textures, normals, corners, sizes: mesh.sizes.clone() };
    Moved { mesh: moved, counts, numbers: vec![0; longest(mesh)] }
}

/// The entries of a list that its column of the corners uses, each where it is used first.
fn first_uses(mesh: &Mesh, column: usize) -> Vec<u32> {
    let mut is_new = vec![true; longest(mesh)];
    let indices = mesh.corners.iter().skip(column).step_by(WIDTH).copied();
    indices.filter(|index| *index != MISSING && std::mem::replace(&mut is_new[*index as usize], false)).collect()
}

/// These entries of a list, and zero bits up to its old length.
fn in_room_of(list: &[f64], width: usize, used: &[u32]) -> Vec<f64> {
    let mut room = vec![0.0; list.len()];
    for (place, entry) in room.chunks_mut(width).zip(used) {
        place.copy_from_slice(&list[*entry as usize * width..][..width]);
    }
    room
}
