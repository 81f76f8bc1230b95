//! Questions to merging: a tolerance that is not a number, and both sides of the numbers 6, 7 and 8.

use crate::subjects::furnished;
use judge::mesh::WIDTH;
use judge::Mesh;

/// The next f64 above a positive one, and the one below it.
fn above(x: f64) -> f64 {
    f64::from_bits(x.to_bits() + 1)
}

fn below(x: f64) -> f64 {
    f64::from_bits(x.to_bits() - 1)
}

/// A mesh and a tolerance.
pub type Asked = (Mesh, f64);

/// A triangle over three positions, three texture points and three normals, the third of these unused.
fn triangle() -> Mesh {
    let mut mesh = furnished(&[&[0, 1, 2]]);
    mesh.corners[2 * WIDTH + 2] = 1;
    mesh
}

/// Examples 10 and 11; 6: not a number from 2^-30 to 1 inclusive.
pub fn tolerances() -> Vec<Asked> {
    let least = 2f64.powi(-30);
    let all = [
        f64::NAN,
        -f64::NAN,
        f64::INFINITY,
        f64::NEG_INFINITY,
        0.0,
        -0.0,
        -0.5,
        -1.0,
        5e-324,
        below(least),
        least,
        above(least),
        0.5,
        0.625,
        below(1.0),
        1.0,
        above(1.0),
        2.0,
    ];
    all.iter().map(|tolerance| (triangle(), *tolerance)).collect()
}

/// 7: a coordinate is not finite, or its magnitude is above 2^60; in each of the three lists, an unused entry too. In texture points
/// and normals 2^60 itself is refused by 8.
pub fn coordinates() -> Vec<Asked> {
    let most = 2f64.powi(60);
    let all = [most, above(most), -most, -above(most), f64::INFINITY, f64::NEG_INFINITY, f64::NAN, f64::MAX];
    let mut asked = vec![];
    for list in 0..3 {
        for coordinate in all {
            asked.push((with(list, coordinate, 0), 1.0));
        }
        asked.push((with(list, f64::NAN, 1), 1.0));
        asked.push((with(list, above(most), 1), 1.0));
    }
    asked
}

/// 8: a quotient just below 2^53 and at it, by exact tolerances and by one that rounds, in texture points and in normals.
pub fn quotients() -> Vec<Asked> {
    let cells = 2f64.powi(53);
    let mut asked = vec![];
    for tolerance in [1.0, 0.5, 2f64.powi(-30), 0.3, 0.001] {
        let mut first = cells * tolerance;
        while first / tolerance >= cells {
            first = below(first);
        }
        while first / tolerance < cells {
            first = above(first);
        }
        for list in 1..3 {
            for coordinate in [first, below(first), -first, -below(first)] {
                asked.push((with(list, coordinate, asked.len() % 2), tolerance));
            }
        }
    }
    asked
}

/// The triangle with one coordinate changed: the first of a list, or its last.
fn with(list: usize, coordinate: f64, last: usize) -> Mesh {
    let mut mesh = triangle();
    let list = [&mut mesh.positions, &mut mesh.textures, &mut mesh.normals].into_iter().nth(list).unwrap();
    let place = last * (list.len() - 1);
    list[place] = coordinate;
    mesh
}

/// Merges at their smallest: chains, ties, points that are just near and just not, zeros of both signs, a group of one.
pub fn merges() -> Vec<Asked> {
    let rows: [(&[f64], f64); 9] = [
        (&[0.0, 0.0, 0.5, 0.0, 1.0, 0.0], 0.5),
        (&[0.0, 0.0, 0.5, 0.0, 1.0, 0.0], 0.625),
        (&[-0.25, 0.0, 0.0, 0.0, 0.0, 0.0, 0.25, 0.0], 1.0),
        (&[0.0, 0.0, -0.0, -0.0, 0.0, -0.0], 0.125),
        (&[0.0, 0.0, 0.0, 0.7, 0.7, 0.0, 0.7, 0.7], 0.75),
        (&[3.0, 0.0, 2.5, 0.0, 2.0, 0.0, 0.0, 0.0, 1.0, 0.0], 0.625),
        (&[0.9, 0.0, -0.9, 0.0, 0.1, 0.0, -0.1, 0.0], 0.3),
        (&[0.1, 0.2, 0.3, 0.4, 0.1, 0.2, 0.3, 0.4], 1e-6),
        (&[1e15, 0.0, 1e15, 0.25, 1e15, 0.5], 0.375),
    ];
    let mut asked = vec![];
    for (row, tolerance) in rows {
        let count = row.len() / 2;
        let face: Vec<u32> = (0..count as u32).collect();
        let mut mesh = furnished(&[&face]);
        mesh.textures = row.to_vec();
        // The same points among the positions, with a third coordinate, and backwards among the normals.
        mesh.positions = row.chunks(2).flat_map(|p| [p[0], p[1], 0.25]).collect();
        mesh.normals = row.chunks(2).rev().flat_map(|p| [p[1], p[0], -0.5]).collect();
        (0..count).for_each(|corner| mesh.corners[WIDTH * corner + 2] = corner as u32);
        asked.push((mesh, tolerance));
    }
    asked
}
