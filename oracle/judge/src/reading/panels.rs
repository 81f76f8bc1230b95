//! 'Panels'.

use crate::mesh::{Corner, Mesh};
use std::collections::BTreeMap;

/// An edge key: two positions, each with its normal under the normals setting.
type Key = [(u32, Option<u32>); 2];

/// Both positions, lower first; with equal positions the second corner first.
fn key(first: Corner, second: Corner, use_normal: bool) -> Key {
    let end = |corner: Corner| (corner[0], Some(corner[2]).filter(|_| use_normal));
    if first[0] < second[0] {
        [end(first), end(second)]
    } else {
        [end(second), end(first)]
    }
}

/// The neighbours of each face in the order in which they are recorded: each later use of a key joins its face to the first
/// face that had the key.
fn neighbours(mesh: &Mesh, use_normal: bool) -> Vec<Vec<usize>> {
    let mut neighbours = vec![vec![]; mesh.sizes.len()];
    let mut first_with: BTreeMap<Key, usize> = BTreeMap::new();
    for (this, face) in mesh.faces().iter().enumerate() {
        for i in 0..face.len() {
            let key = key(face[i], face[(i + 1) % face.len()], use_normal);
            match first_with.get(&key) {
                None => {
                    first_with.insert(key, this);
                }
                Some(first) => {
                    neighbours[this].push(*first);
                    neighbours[*first].push(this);
                }
            }
        }
    }
    neighbours
}

/// The panels, each a list of faces in the order in which they are first seen.
pub fn components(mesh: &Mesh, use_normal: bool) -> Vec<Vec<u32>> {
    let neighbours = neighbours(mesh, use_normal);
    let mut seen = vec![false; neighbours.len()];
    let mut panels = vec![];
    for lowest in 0..neighbours.len() {
        if seen[lowest] {
            continue;
        }
        seen[lowest] = true;
        let mut panel = vec![lowest as u32];
        let mut stack = vec![lowest];
        while let Some(face) = stack.pop() {
            for next in &neighbours[face] {
                if !seen[*next] {
                    seen[*next] = true;
                    panel.push(*next as u32);
                    stack.push(*next);
                }
            }
        }
        panels.push(panel);
    }
    panels
}
