//! Damage to a mesh and to the rooms of its results, for the numbers of the table.

use crate::coordinates;
use crate::random::Random;
use judge::mesh::{INDICES, WIDTH};
use judge::{Mesh, MISSING};

/// Spoils something. Most of it earns a number; some of it is still accepted.
pub fn mesh(random: &Random, mesh: &mut Mesh) {
    for _ in 0..random.pick(&[1, 1, 1, 2, 3]) {
        match random.below(12) {
            0 => over_a_limit(random, mesh),
            1..=2 => length_off(random, mesh),
            3..=5 => size_off(random, mesh),
            6 => order_off(random, mesh),
            _ => index_off(random, mesh),
        }
    }
}

/// One list is over its limit by one number, by one entry, or right at it.
fn over_a_limit(random: &Random, mesh: &mut Mesh) {
    let by = random.pick(&[0, 1, 1, 2, 3]);
    match random.below(5) {
        0 => mesh.positions.resize(3 * 2_048 + by, 0.0),
        1 => mesh.textures.resize(2 * 2_048 + by, 0.0),
        2 => mesh.normals.resize(3 * 2_048 + by, 0.0),
        3 => mesh.corners.resize(WIDTH * 4_096 + by, 0),
        _ => mesh.sizes.resize(1_365 + by, 3),
    }
}

/// One list is some numbers shorter or longer.
fn length_off(random: &Random, mesh: &mut Mesh) {
    fn change<T: Clone>(random: &Random, list: &mut Vec<T>, more: T) {
        let by = random.within(1, 4);
        let length = if random.once_in(2) { list.len() + by } else { list.len().saturating_sub(by) };
        list.resize(length, more);
    }
    match random.below(5) {
        0 => change(random, &mut mesh.positions, 0.5),
        1 => change(random, &mut mesh.textures, 0.5),
        2 => change(random, &mut mesh.normals, 0.5),
        3 => change(random, &mut mesh.corners, 0),
        _ => change(random, &mut mesh.sizes, 3),
    }
}

/// A size is changed; or two are, so that their sum, or their sum in 32 bits, is as before.
fn size_off(random: &Random, mesh: &mut Mesh) {
    if mesh.sizes.is_empty() {
        mesh.sizes.push(random.pick(&[0, 3, MISSING]));
        return;
    }
    let (one, other) = (random.below(mesh.sizes.len()), random.below(mesh.sizes.len()));
    match random.below(5) {
        0 => mesh.sizes[one] = random.pick(&[0, 1, 2, 3, 4, 5, 32, 33, 256, 300, 301, MISSING]),
        1 => {
            let by = random.pick(&[1, 2, 3, 30, 0x8000_0000]);
            mesh.sizes[one] = mesh.sizes[one].wrapping_add(by);
            mesh.sizes[other] = mesh.sizes[other].wrapping_sub(by);
        }
        2 => {
            let size = mesh.sizes[one];
            mesh.sizes.insert(one, 0);
            mesh.sizes[one + 1] = size;
        }
        3 => grow_the_last(random, mesh),
        _ if one != other => {
            let joined = mesh.sizes[one].wrapping_add(mesh.sizes[other]);
            mesh.sizes[one] = joined;
            mesh.sizes.remove(other);
        }
        _ => mesh.sizes[one] = 301,
    }
}

/// The last face gets corners until it has about as many as a face may have, or as many as it had and 256.
fn grow_the_last(random: &Random, mesh: &mut Mesh) {
    let last = mesh.sizes.len() - 1;
    let old = mesh.sizes[last];
    let new = random.pick(&[32, 33, 299, 300, 300, 301, 301, 302, old.min(1_000) + 256]);
    if old < new && old as usize <= mesh.corner_count() {
        mesh.sizes[last] = new;
        mesh.corners.resize(mesh.corners.len() + WIDTH * (new - old) as usize, 0);
    }
}

/// Two sizes change places.
fn order_off(random: &Random, mesh: &mut Mesh) {
    if !mesh.sizes.is_empty() {
        let (one, other) = (random.below(mesh.sizes.len()), random.below(mesh.sizes.len()));
        mesh.sizes.swap(one, other);
    }
}

/// An index is at its list's count, above it, or missing; or a mark is, which earns nothing.
fn index_off(random: &Random, mesh: &mut Mesh) {
    if mesh.corners.is_empty() {
        return;
    }
    let place = random.below(mesh.corners.len());
    let counts = [mesh.positions.len() / 3, mesh.textures.len() / 2, mesh.normals.len() / 3];
    let count = counts[place % WIDTH % INDICES] as u32;
    mesh.corners[place] = random.pick(&[count, count, count + 1, count.wrapping_sub(1), MISSING, MISSING - 1, 0x8000_0000, 0]);
}

/// A coordinate or two of any list are not finite.
pub fn coordinates(random: &Random, mesh: &mut Mesh) {
    for _ in 0..random.within(1, 2) {
        let list = random.below(3);
        let list = [&mut mesh.positions, &mut mesh.textures, &mut mesh.normals].into_iter().nth(list).unwrap();
        let place = random.below(list.len());
        if let Some(coordinate) = list.get_mut(place) {
            *coordinate = coordinates::broken(random);
        }
    }
}

/// The rooms that are lent for stated ones: exact, longer, or one of them too short.
pub fn rooms(random: &Random, stated: Vec<usize>) -> Vec<usize> {
    let mut rooms = stated;
    match random.below(8) {
        0..=3 => {}
        4..=5 => rooms.iter_mut().for_each(|room| *room += random.below(5)),
        more if !rooms.is_empty() => {
            let short = random.below(rooms.len());
            rooms.iter_mut().for_each(|room| *room += random.below(2));
            rooms[short] = if more == 6 { rooms[short].saturating_sub(1) } else { random.below(rooms[short] + 1) };
        }
        _ => {}
    }
    rooms
}
