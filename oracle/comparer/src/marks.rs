//! Seam marks, on some corners of a mesh: on all of them, on a few, on one, on those of one face; each another, a few, or any number.

use crate::random::Random;
use judge::mesh::{Corner, INDICES};
use judge::MISSING;

/// Marks the corners of some faces; two meshes in five stay without.
pub fn put(random: &Random, faces: &mut [Vec<Corner>]) {
    let value = values(random);
    let count = faces.len();
    match random.below(10) {
        0..=3 => {}
        4 => put_on(random, faces.iter_mut().flatten(), usize::MAX, value),
        5..=6 => put_on(random, faces.iter_mut().flatten(), random.pick(&[1, 2, 5, 20]), value),
        7 => put_on(random, faces.iter_mut().skip(random.below(count)).take(1).flatten(), 1, value),
        8 => put_on(random, faces.iter_mut().filter_map(|face| face.last_mut()), random.pick(&[1, 2]), value),
        _ => put_on(random, faces.iter_mut().filter_map(|face| face.first_mut()), random.pick(&[1, 2]), value),
    }
}

/// Marks one corner in so many; one alone where that is never.
fn put_on<'a>(random: &Random, corners: impl Iterator<Item = &'a mut Corner>, once_in: usize, value: Value) {
    let corners: Vec<&mut Corner> = corners.collect();
    let only = random.below(corners.len());
    for (place, corner) in corners.into_iter().enumerate() {
        let is_marked = if once_in == usize::MAX { place == only } else { random.once_in(once_in) };
        if is_marked {
            corner[INDICES] = value(random, place);
        }
    }
}

/// The mark of a corner by its place.
type Value = fn(&Random, usize) -> u32;

/// Darts and notches, each corner a mark of its own, marks that are like indices, and any number.
fn values(random: &Random) -> Value {
    random.pick(&[
        (|random: &Random, _: usize| random.pick(&[1, 2])) as Value,
        |_: &Random, place: usize| place as u32 + 1,
        |random: &Random, _: usize| random.below(4) as u32,
        |random: &Random, _: usize| random.pick(&[1, 255, 256, 65_536, 0x0100_0000, 0x8000_0000, MISSING - 1, MISSING]),
        |random: &Random, _: usize| random.bits() as u32,
    ])
}

/// One mark, or none.
pub fn one(random: &Random) -> u32 {
    random.pick(&[0, 0, 1, 2, 300, MISSING])
}
