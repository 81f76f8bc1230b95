//! Mergings with one misreading each.

use judge::mesh::{Merged, INDICES, WIDTH};
use judge::{Answer, Question, MISSING};

/// Which misreading.
#[derive(Clone, Copy, PartialEq)]
pub enum Misread {
    /// A cell is rounded down.
    CellRoundedDown,
    /// Points at exactly the tolerance are near.
    NearAtTheTolerance,
    /// Of points that are equally far from the centre the last is taken.
    LastOfEquals,
    /// The walk goes to its near points in ascending order, not from a stack.
    WalkInOrder,
    /// Near points need not be connected: each point looks at its own near points alone.
    NotConnected,
    /// Distances are taken to the lowest point, not to the centre.
    NoCentre,
}

/// What merging answers with this misreading of an accepted question.
pub fn merging(question: &Question, misread: Misread) -> Answer {
    merging_by(question, Some(misread), &every_pair)
}

/// From the cells of some points: for each the others that are compared with it, ascending, and how many pairs that are.
pub type Reach = dyn Fn(&[Vec<f64>]) -> (Vec<Vec<usize>>, u64);

/// The same, with what is compared found in some way, and with or without a misreading.
pub fn merging_by(question: &Question, misread: Option<Misread>, reach: &Reach) -> Answer {
    let (mesh, tolerance) = (&question.mesh, question.tolerance);
    let columns = [
        column(&scaled(&mesh.positions), 3, tolerance, misread, reach),
        column(&mesh.textures, 2, tolerance, misread, reach),
        column(&mesh.normals, 3, tolerance, misread, reach),
    ];
    let new = |(i, number): (usize, &u32)| match (i % WIDTH, *number) {
        (INDICES, mark) => mark,
        (_, MISSING) => MISSING,
        (column, index) => columns[column].0[index as usize] as u32,
    };
    Answer::merged(Merged {
        corners: mesh.corners.iter().enumerate().map(new).collect(),
        pairs: [columns[0].1, columns[1].1, columns[2].1],
    })
}

fn scaled(positions: &[f64]) -> Vec<f64> {
    let on_axis = |axis: usize| positions.iter().skip(axis).step_by(3).copied();
    let least = |axis: usize| on_axis(axis).fold(f64::INFINITY, f64::min);
    let side = |axis: usize| on_axis(axis).fold(f64::NEG_INFINITY, f64::max) - least(axis);
    let (leasts, sides) = ([least(0), least(1), least(2)], [side(0), side(1), side(2)]);
    let scale = |(i, p): (usize, &f64)| 2.0 * ((p - (leasts[i % 3] + sides[i % 3] / 2.0)) / sides[i % 3].max(1.0));
    positions.iter().enumerate().map(scale).collect()
}

/// The representatives of one list, and how many pairs were compared.
fn column(list: &[f64], width: usize, tolerance: f64, misread: Option<Misread>, reach: &Reach) -> (Vec<usize>, u64) {
    let points: Vec<&[f64]> = list.chunks(width).collect();
    let cut = |c: &f64| if misread == Some(Misread::CellRoundedDown) { (c / tolerance).floor() } else { (c / tolerance).trunc() };
    let cells: Vec<Vec<f64>> = points.iter().map(|point| point.iter().map(cut).collect()).collect();
    let (mut near, pairs) = reach(&cells);
    for (i, compared) in near.iter_mut().enumerate() {
        compared.retain(|j| {
            let (distance, bound) = (squared_distance(points[i], points[*j]), tolerance * tolerance);
            distance < bound || distance == bound && misread == Some(Misread::NearAtTheTolerance)
        });
    }
    let mut representatives = vec![usize::MAX; points.len()];
    for lowest in 0..points.len() {
        if representatives[lowest] == usize::MAX {
            let group = group(lowest, &near, &representatives, misread);
            let best = representative(&group, &points, misread);
            group.iter().for_each(|i| representatives[*i] = best);
        }
    }
    (representatives, pairs)
}

/// Every pair is looked at, from both ends.
fn every_pair(cells: &[Vec<f64>]) -> (Vec<Vec<usize>>, u64) {
    let is_compared = |i: usize, j: usize| i != j && cells[i].iter().zip(&cells[j]).all(|(a, b)| (a - b).abs() <= 2.0);
    let of = |i: usize| -> Vec<usize> { (0..cells.len()).filter(|j| is_compared(i, *j)).collect() };
    let reach: Vec<Vec<usize>> = (0..cells.len()).map(of).collect();
    let ends: usize = reach.iter().map(|compared| compared.len()).sum();
    (reach, ends as u64 / 2)
}

fn squared_distance(a: &[f64], b: &[f64]) -> f64 {
    a.iter().zip(b).map(|(a, b)| (a - b) * (a - b)).reduce(|sum, s| sum + s).unwrap()
}

fn group(lowest: usize, near: &[Vec<usize>], done: &[usize], misread: Option<Misread>) -> Vec<usize> {
    let (mut order, mut stack) = (vec![], vec![lowest]);
    while let Some(point) = stack.pop() {
        if order.contains(&point) || done[point] != usize::MAX {
            continue;
        }
        order.push(point);
        if misread == Some(Misread::WalkInOrder) {
            stack.extend(near[point].iter().rev());
        } else if misread != Some(Misread::NotConnected) || point == lowest {
            stack.extend(&near[point]);
        }
    }
    order
}

fn representative(group: &[usize], points: &[&[f64]], misread: Option<Misread>) -> usize {
    let sum = |axis: usize| group.iter().fold(0.0, |sum, i| sum + points[*i][axis]) / group.len() as f64;
    let mean: Vec<f64> = (0..points[0].len()).map(sum).collect();
    let centre: &[f64] = if misread == Some(Misread::NoCentre) { points[group[0]] } else { &mean };
    let mut best = group[0];
    for i in group {
        let (this, least) = (squared_distance(points[*i], centre), squared_distance(points[best], centre));
        if this < least || this == least && misread == Some(Misread::LastOfEquals) {
            best = *i;
        }
    }
    best
}
