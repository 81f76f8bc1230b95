//! Faces by positions: shapes of several kinds, and what makes them rough.

use crate::random::Random;
use judge::reading::numbers::FACE;

/// Faces, each a list of positions.
pub type Faces = Vec<Vec<u32>>;

/// Some faces with at most `corners` corners in all, and with as many positions as it says.
pub fn faces(random: &Random, corners: usize) -> (Faces, usize) {
    let (mut faces, mut positions) = match random.below(8) {
        0..=2 => soup(random, corners),
        3..=5 => sheet(random, corners),
        6 => fans(random, corners),
        _ => rings(random, corners),
    };
    if random.once_in(2) {
        positions = roughen(random, &mut faces, positions);
    }
    if random.once_in(2) {
        relabel(random, &mut faces, positions);
    }
    cut_to(&mut faces, corners);
    (faces, positions.min(2_048))
}

/// Faces with corners anywhere. With few positions, edges meet and faces fold.
fn soup(random: &Random, corners: usize) -> (Faces, usize) {
    let positions = match random.below(4) {
        0 => random.within(1, 5),
        1 => random.within(3, 12),
        2 => random.within(3, 3 + corners / 2),
        _ => random.within(3, 2_048),
    };
    let positions = positions.min(2_048);
    let largest = random.pick(&[3, 3, 4, 5, 8, 32, 300]);
    let mut faces = vec![];
    let mut left = corners;
    while left >= 3 {
        let size = random.within(3, largest.min(left));
        faces.push((0..size).map(|_| random.below(positions) as u32).collect());
        left -= size;
    }
    (faces, positions)
}

/// A sheet of squares, flat, closed to a tube, or closed to a ring of tube; of quadrangles or of triangles; with holes.
fn sheet(random: &Random, corners: usize) -> (Faces, usize) {
    let squares = (corners / if random.once_in(2) { 4 } else { 6 }).max(1);
    let wide = random.within(1, squares.min(40));
    let high = (squares / wide).clamp(1, 2_000 / (wide + 1));
    let (around, along) = (random.once_in(2), random.once_in(3));
    let columns = if around { wide } else { wide + 1 };
    let rows = if along { high } else { high + 1 };
    let at = |x: usize, y: usize| ((y % rows) * columns + x % columns) as u32;
    let cut = random.below(3);
    let mut faces = vec![];
    for (x, y) in (0..high).flat_map(|y| (0..wide).map(move |x| (x, y))) {
        let [a, b, c, d] = [at(x, y), at(x + 1, y), at(x + 1, y + 1), at(x, y + 1)];
        if cut == 0 || cut == 1 && random.once_in(2) {
            faces.push(vec![a, b, c]);
            faces.push(vec![a, c, d]);
        } else {
            faces.push(vec![a, b, c, d]);
        }
    }
    let holes = random.pick(&[0, 0, 8, 3]);
    if holes > 0 {
        faces.retain(|_| !random.once_in(holes));
    }
    (faces, rows * columns)
}

/// Triangles around a middle, open or closed, some of them sharing a rim.
fn fans(random: &Random, corners: usize) -> (Faces, usize) {
    let (mut faces, mut positions, mut left) = (vec![], 0, corners);
    while left >= 3 && positions < 2_000 {
        let blades = random.within(1, (left / 3).min(random.pick(&[4, 12, 40])));
        let middle = if positions > 0 && random.once_in(2) { random.below(positions) } else { positions };
        let rim = positions + 1;
        let closed = random.once_in(2);
        for blade in 0..blades {
            let next = if closed && blade + 1 == blades { 0 } else { blade + 1 };
            faces.push(vec![middle as u32, (rim + blade) as u32, (rim + next) as u32]);
        }
        positions = rim + blades + 1;
        left -= 3 * blades;
    }
    (faces, positions.max(1))
}

/// Large faces that come back to their own positions.
fn rings(random: &Random, corners: usize) -> (Faces, usize) {
    let positions = random.within(1, random.pick(&[4, 8, 40]).min(corners.max(1)));
    let (mut faces, mut left) = (vec![], corners);
    while left >= 5 {
        let size = random.within(5, random.pick(&[6, 8, 12, 32, 300]).min(left));
        let mut face: Vec<u32> = (0..size).map(|i| ((i + faces.len()) % positions) as u32).collect();
        (0..random.below(size)).for_each(|_| face[random.below(size)] = random.below(positions) as u32);
        faces.push(face);
        left -= size;
    }
    (faces, positions)
}

/// Turns faces over, repeats faces, makes two positions one, repeats a corner, begins faces elsewhere, changes their order.
pub fn roughen(random: &Random, faces: &mut Faces, positions: usize) -> usize {
    let rate = random.pick(&[2, 6, 30, 200]);
    for i in 0..faces.len() {
        if !random.once_in(rate) {
            continue;
        }
        match random.below(6) {
            0 => faces[i].reverse(),
            1 => faces.push(faces[i].clone()),
            2 => {
                let (from, to) = (faces[i][0], random.below(positions) as u32);
                faces.iter_mut().flatten().filter(|p| **p == from).for_each(|p| *p = to);
            }
            3 => {
                let corner = random.below(faces[i].len());
                let position = faces[i][corner];
                faces[i].insert(corner, position);
            }
            4 => {
                let start = random.below(faces[i].len());
                faces[i].rotate_left(start);
            }
            _ => {
                let corner = random.below(faces[i].len());
                faces[i][corner] = random.below(positions) as u32;
            }
        }
    }
    if random.once_in(2) {
        random.shuffle(faces);
    }
    positions
}

/// Gives the positions other numbers.
pub fn relabel(random: &Random, faces: &mut Faces, positions: usize) {
    let mut names: Vec<u32> = (0..positions as u32).collect();
    random.shuffle(&mut names);
    faces.iter_mut().flatten().for_each(|p| *p = names[*p as usize]);
}

/// Keeps the first faces, of 3 to 300 corners, that fit in so many corners and in 2,048 positions.
pub fn cut_to(faces: &mut Faces, corners: usize) {
    let mut left = corners;
    faces.retain(|face| {
        let fits = face.len() <= left && FACE.contains(&(face.len() as u32)) && face.iter().all(|p| *p < 2_048);
        left -= if fits { face.len() } else { 0 };
        fits
    });
}
