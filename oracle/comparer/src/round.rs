//! Faces of more than 32 corners, on both sides of each number that the document names: drums with round ends, rings that meet themselves once, often or
//! everywhere, and as many faces of 300 corners as a mesh can hold.

use crate::random::Random;
use crate::shapes::{cut_to, relabel, roughen, Faces};
use judge::reading::numbers::CORNERS;

/// The most corners of a face.
const MOST: usize = 300;

/// Some faces, and with as many positions as it says.
pub fn faces(random: &Random) -> (Faces, usize) {
    let (mut faces, mut positions) = match random.below(8) {
        0..=2 => drum(random),
        3..=6 => rings(random),
        _ => full(random),
    };
    if random.once_in(3) {
        positions = roughen(random, &mut faces, positions);
    }
    if random.once_in(2) {
        relabel(random, &mut faces, positions);
    }
    if random.once_in(3) {
        random.shuffle(&mut faces);
    }
    cut_to(&mut faces, CORNERS);
    (faces, positions)
}

/// How many corners: at the borders of a kind, of a byte and of the limit, or anything between.
fn size(random: &Random) -> usize {
    match random.below(3) {
        0 => random.pick(&[31, 32, 33, 34, 255, 256, 257, 298, 299, MOST]),
        1 => random.within(33, 64),
        _ => random.within(33, MOST),
    }
}

/// A drum: a wall of quadrangles, some of which may be left out, and no round end, one or two. The lower may look inwards.
fn drum(random: &Random) -> (Faces, usize) {
    let around = size(random);
    let at = |ring: usize, place: usize| (ring * around + place % around) as u32;
    let left_out = random.pick(&[3, 40, usize::MAX, usize::MAX]);
    let wall = (0..around).filter(|_| !random.once_in(left_out));
    let mut faces: Faces = wall.map(|k| vec![at(0, k), at(0, k + 1), at(1, k + 1), at(1, k)]).collect();
    let ends = random.below(4);
    if ends > 0 {
        faces.push((0..around).map(|k| at(1, k)).collect());
    }
    if ends > 1 {
        let inwards = random.once_in(6);
        faces.push((0..around).map(|k| at(0, if inwards { k } else { around - 1 - k })).collect());
    }
    (faces, 2 * around)
}

/// One ring or a few, folded in ways of their own.
fn rings(random: &Random) -> (Faces, usize) {
    let faces: Faces = (0..random.within(1, 3)).map(|_| folded(random, size(random))).collect();
    let small = (0..random.below(3)).map(|k| vec![k as u32, k as u32 + 1, k as u32 + 2]);
    (small.chain(faces).collect(), MOST)
}

/// As many faces of 300 corners as there may be, or nearly.
fn full(random: &Random) -> (Faces, usize) {
    let way = random.once_in(2);
    let ring = |k: usize| if way { (0..MOST).map(|i| ((k * 150 + i) % 2_000) as u32).collect() } else { folded(random, MOST) };
    ((0..random.within(2, CORNERS / MOST)).map(ring).collect(), 2_000)
}

/// A ring of so many corners.
fn folded(random: &Random, size: usize) -> Vec<u32> {
    let laps = random.within(2, 8);
    let mut face: Vec<usize> = match random.below(9) {
        // Apart; all at one position; over few positions; laps of one circle; there and back; petals at one position.
        0..=1 => (0..size).collect(),
        2 if random.once_in(4) => vec![0; size],
        2 | 3 => (0..size).map(|i| i % random.within(1, laps)).collect(),
        4 => (0..size).map(|i| i % (size / laps)).collect(),
        5 => (0..size).map(|i| i.min(size - 1 - i)).collect(),
        6 => (0..size).map(|i| if i % laps == 0 { 0 } else { i }).collect(),
        7 => (0..size).map(|_| random.below(size)).collect(),
        // Each corner twice, in its place or at the other end of the ring.
        _ => (0..size).map(|i| if i % 2 == 0 { i / 2 } else { size / 2 + i / laps }).collect(),
    };
    // A corner or more that comes back to a position of the ring.
    for _ in 0..random.pick(&[0, 0, 1, 2, 20]) {
        let (from, to) = (random.below(size), random.below(size));
        face[to] = face[from];
    }
    let start = random.below(size);
    face.rotate_left(start);
    face.into_iter().map(|position| position as u32).collect()
}
