//! 'Merging'.

use crate::mesh::{Merged, Mesh, INDICES, MISSING, WIDTH};

/// Indices in corners become the representative's; missing stays missing, and so does the mark, which is no index.
pub fn put_together_same_attrs(mesh: &Mesh, tolerance: f64) -> Merged {
    let (positions, p) = merged(&scaled(points(&mesh.positions)), tolerance);
    let (textures, t) = merged(&points::<2>(&mesh.textures), tolerance);
    let (normals, n) = merged(&points::<3>(&mesh.normals), tolerance);
    let representatives = [positions, textures, normals];
    let new = |(i, number): (usize, &u32)| match (i % WIDTH, *number) {
        (INDICES, mark) => mark,
        (_, MISSING) => MISSING,
        (column, index) => representatives[column][index as usize] as u32,
    };
    Merged { corners: mesh.corners.iter().enumerate().map(new).collect(), pairs: [p, t, n] }
}

fn points<const WIDTH: usize>(list: &[f64]) -> Vec<[f64; WIDTH]> {
    list.chunks(WIDTH).map(|point| point.try_into().unwrap()).collect()
}

/// Positions are first scaled on each axis.
fn scaled(mut points: Vec<[f64; 3]>) -> Vec<[f64; 3]> {
    for axis in 0..3 {
        let least = points.iter().map(|p| p[axis]).fold(f64::INFINITY, f64::min);
        let greatest = points.iter().map(|p| p[axis]).fold(f64::NEG_INFINITY, f64::max);
        let centre = least + (greatest - least) / 2.0;
        let divisor = if greatest - least > 1.0 { greatest - least } else { 1.0 };
        points.iter_mut().for_each(|p| p[axis] = 2.0 * ((p[axis] - centre) / divisor));
    }
    points
}

/// The representative of each point, and how many pairs were compared.
fn merged<const WIDTH: usize>(points: &[[f64; WIDTH]], tolerance: f64) -> (Vec<usize>, u64) {
    let cells: Vec<[i64; WIDTH]> = points.iter().map(|point| point.map(|c| (c / tolerance).trunc() as i64)).collect();
    let mut near = vec![vec![]; points.len()];
    let mut pairs = 0;
    for i in 0..points.len() {
        for j in i + 1..points.len() {
            if !are_compared(&cells[i], &cells[j]) {
                continue;
            }
            pairs += 1;
            if squared_distance(&points[i], &points[j]) < tolerance * tolerance {
                near[i].push(j);
                near[j].push(i);
            }
        }
    }
    // Each list of near points is ascending: those below i came while i was the higher of the two.
    (representatives(points, &near), pairs)
}

/// Two points are compared when their cells differ by at most 2 on every axis.
fn are_compared(a: &[i64], b: &[i64]) -> bool {
    a.iter().zip(b).all(|(a, b)| (a - b).abs() <= 2)
}

/// The squares are summed left to right.
fn squared_distance(a: &[f64], b: &[f64]) -> f64 {
    let squares = a.iter().zip(b).map(|(a, b)| (a - b) * (a - b));
    squares.reduce(|sum, square| sum + square).unwrap()
}

/// For each group, from its lowest index on: its walk, its centre, its representative.
fn representatives<const WIDTH: usize>(points: &[[f64; WIDTH]], near: &[Vec<usize>]) -> Vec<usize> {
    let mut representative: Vec<Option<usize>> = vec![None; points.len()];
    for lowest in 0..points.len() {
        if representative[lowest].is_some() {
            continue;
        }
        let group = walk(lowest, near);
        let centre = centre(points, &group);
        let mut best = group[0];
        for i in &group {
            if squared_distance(&points[*i], &centre) < squared_distance(&points[best], &centre) {
                best = *i;
            }
        }
        group.iter().for_each(|i| representative[*i] = Some(best));
    }
    representative.into_iter().map(|r| r.unwrap()).collect()
}

/// Pop; if new, take it and push its near points in ascending order.
fn walk(lowest: usize, near: &[Vec<usize>]) -> Vec<usize> {
    let mut taken = vec![false; near.len()];
    let mut order = vec![];
    let mut stack = vec![lowest];
    while let Some(point) = stack.pop() {
        if !taken[point] {
            taken[point] = true;
            order.push(point);
            stack.extend(&near[point]);
        }
    }
    order
}

/// The sum from 0.0 in walk order, divided by the count.
fn centre<const WIDTH: usize>(points: &[[f64; WIDTH]], group: &[usize]) -> [f64; WIDTH] {
    let mut sum = [0.0; WIDTH];
    for i in group {
        (0..WIDTH).for_each(|axis| sum[axis] += points[*i][axis]);
    }
    sum.map(|axis| axis / group.len() as f64)
}
