//! Faces whose hems touch: openings that meet in a point, pieces that hang together by one, faces that meet themselves, edges from a position to
//! itself. All of it uses no edge too often, so that the verdict is Oriented or Closed.

use crate::random::Random;
use crate::shapes::Faces;
use crate::surfaces::{pinch, renumber, turn};
use judge::reading::numbers::FACE;
use std::collections::BTreeSet;

/// Some faces with at most `corners` corners in all, and with as many positions as it says.
pub fn faces(random: &Random, corners: usize) -> (Faces, usize) {
    let mut faces = shape(random, corners);
    if random.once_in(3) {
        pinch(random, &mut faces);
    }
    if random.once_in(4) {
        there_and_back(random, &mut faces);
    }
    if random.once_in(4) {
        repeat_corners(random, &mut faces);
    }
    turn(random, &mut faces);
    keep_oriented(&mut faces, corners);
    renumber(random, &mut faces);
    let positions = faces.iter().flatten().max().map_or(1, |last| *last as usize + 1);
    (faces, positions)
}

fn shape(random: &Random, corners: usize) -> Faces {
    match random.below(8) {
        0 => fans(random, corners),
        1..=2 => ring_of_holes(random, corners),
        3..=4 => squares(random, corners),
        5..=6 => anywhere(random, corners),
        _ => flowers(random, corners),
    }
}

/// Fans around few positions, open or closed.
fn fans(random: &Random, corners: usize) -> Faces {
    let middles = random.within(1, 3);
    let (mut faces, mut next, mut left) = (vec![], middles as u32, corners / 3);
    while left > 0 {
        let (middle, blades) = (random.below(middles) as u32, random.within(1, left.min(5)));
        let closed = random.once_in(5);
        for blade in 0..blades {
            let end = if closed && blade + 1 == blades { 0 } else { blade + 1 };
            faces.push(vec![middle, next + blade as u32, next + end as u32]);
        }
        next += blades as u32 + 1;
        left -= blades;
    }
    faces
}

/// A disc and a ring around it. Between them are holes, each touching the next; where one is closed, disc and ring are one cloth.
fn ring_of_holes(random: &Random, corners: usize) -> Faces {
    let holes = (corners / random.pick(&[10, 14])).clamp(1, 40);
    let around = 2 * holes as u32;
    let (closing, in_one) = (random.pick(&[2, 4, usize::MAX]), FACE.contains(&around) && random.once_in(2));
    let closed: Vec<bool> = (0..holes).map(|_| random.once_in(closing)).collect();
    let disc = |k: u32| 1 + k % around;
    let ring = |k: u32| disc(k) + if k % 2 == 0 || closed[(k % around / 2) as usize] { 0 } else { around };
    let outer = |k: u32| disc(k) + 2 * around;
    let mut faces: Faces = (0..around).map(|k| vec![ring(k), outer(k), outer(k + 1), ring(k + 1)]).collect();
    match in_one {
        true => faces.push((0..around).map(disc).collect()),
        false => faces.extend((0..around).map(|k| vec![0, disc(k), disc(k + 1)])),
    }
    faces
}

/// Squares, flat, around a tube or a ring of tube, whole or cut in two: as on a chessboard, all but a diagonal, or some left out.
fn squares(random: &Random, corners: usize) -> Faces {
    let (squares, pattern) = ((corners / 3).max(4), random.below(3));
    let wide = random.within(2, squares.min(18) / 2);
    let high = (squares / wide).max(2);
    let (around, along) = (random.once_in(2), random.once_in(3));
    let (columns, rows) = (if around { wide } else { wide + 1 }, if along { high } else { high + 1 });
    let at = |x: usize, y: usize| (y % rows * columns + x % columns) as u32;
    let mut faces = vec![];
    for (x, y) in (0..high).flat_map(|y| (0..wide).map(move |x| (x, y))) {
        let is_there = match pattern {
            0 => (x + y) % 2 == 0,
            1 => x != y % wide,
            _ => !random.once_in(3),
        };
        let [a, b, c, d] = [at(x, y), at(x + 1, y), at(x + 1, y + 1), at(x, y + 1)];
        match random.below(4) {
            _ if !is_there => {}
            0 => faces.extend([vec![a, b, c], vec![a, c, d]]),
            _ => faces.push(vec![a, b, c, d]),
        }
    }
    faces
}

/// Faces anywhere over few positions, folded ones among them.
fn anywhere(random: &Random, corners: usize) -> Faces {
    let positions = random.within(3, 4 + random.pick(&[1, 3, corners / 3]));
    let largest = random.pick(&[3, 4, 5, 8]);
    let face = || (0..random.within(3, largest)).map(|_| random.below(positions) as u32).collect();
    (0..corners).map(|_| face()).collect()
}

/// Faces of several loops at one position. A loop over one other position goes there and back.
fn flowers(random: &Random, corners: usize) -> Faces {
    let (mut faces, mut next, mut left) = (vec![], 1, corners);
    while left >= 5 {
        let (middle, mut face) = (random.below(next) as u32, vec![]);
        for _ in 0..random.within(2, 4) {
            let others = random.within(1, 3);
            face.push(middle);
            face.extend((next..next + others).map(|position| position as u32));
            next += others;
        }
        left = left.saturating_sub(face.len());
        faces.push(face);
    }
    faces
}

/// Some faces go from a corner to a position and back.
fn there_and_back(random: &Random, faces: &mut Faces) {
    let positions = faces.iter().flatten().max().map_or(0, |last| *last as usize + 2);
    for face in faces.iter_mut().filter(|_| random.once_in(3)) {
        let corner = random.below(face.len());
        let there = random.below(positions) as u32;
        face.splice(corner..corner, [face[corner], there]);
    }
}

/// Some corners stand twice.
fn repeat_corners(random: &Random, faces: &mut Faces) {
    for face in faces.iter_mut().filter(|_| random.once_in(3)) {
        let corner = random.below(face.len());
        face.insert(corner, face[corner]);
    }
}

/// Keeps the first faces, of 3 to 300 corners, that fit in so many corners and take no step, from a position to the next, that was taken before.
fn keep_oriented(faces: &mut Faces, corners: usize) {
    let (mut taken, mut left): (BTreeSet<[u32; 2]>, usize) = (BTreeSet::new(), corners);
    faces.retain(|face| {
        let steps: Vec<[u32; 2]> = (0..face.len()).map(|i| [face[i], face[(i + 1) % face.len()]]).collect();
        let apart = steps.iter().collect::<BTreeSet<_>>().len() == steps.len();
        let is_face = FACE.contains(&(face.len() as u32)) && face.len() <= left;
        let fits = is_face && apart && !steps.iter().any(|step| taken.contains(step));
        left -= if fits { face.len() } else { 0 };
        taken.extend(steps.into_iter().filter(|_| fits));
        fits
    });
}
