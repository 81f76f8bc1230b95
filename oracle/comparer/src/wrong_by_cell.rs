//! Merging by cell with one slip each: the points in the order of their cells, and in reach of a point what stands in the runs of that order.

use crate::wrong::{accepted, Wrong};
use crate::wrong_merging::{merging, merging_by, Misread};
use judge::{Answer, Question};

pub const BY_CELL: &[(&str, Wrong)] = &[
    ("cells within three", |q, right| accepted(right, || by_cell(q, Some(Slip::WithinThree)))),
    ("a run that ends one early", |q, right| accepted(right, || by_cell(q, Some(Slip::EndsEarly)))),
    ("the point itself counted", |q, right| accepted(right, || by_cell(q, Some(Slip::ItselfCounted)))),
    ("a pair counted from both ends", |q, right| accepted(right, || by_cell(q, Some(Slip::BothEnds)))),
    ("the second axis unsorted", |q, right| accepted(right, || by_cell(q, Some(Slip::SecondUnsorted)))),
    ("the lowest next point for the highest", |q, right| accepted(right, || merging(q, Misread::WalkInOrder))),
];

/// What is done wrong.
#[derive(Clone, Copy, PartialEq)]
pub enum Slip {
    /// Cells that differ by three are in reach.
    WithinThree,
    /// Of each run the last point is left out.
    EndsEarly,
    /// A point makes a pair with itself.
    ItselfCounted,
    /// Both points of a pair count it.
    BothEnds,
    /// The order does not go by the second axis.
    SecondUnsorted,
}

/// What merging by cell answers to an accepted question, with this slip or with none.
pub fn by_cell(question: &Question, slip: Option<Slip>) -> Answer {
    merging_by(question, None, &move |cells| in_reach(cells, slip))
}

/// The points in reach of each, ascending and without itself, and how many pairs are counted from them.
fn in_reach(cells: &[Vec<f64>], slip: Option<Slip>) -> (Vec<Vec<usize>>, u64) {
    let rows = rows(cells, slip);
    let (mut reach, mut pairs) = (vec![], 0);
    for i in 0..cells.len() {
        let mut found: Vec<usize> = rows.iter().flat_map(|row| run(row, cells, &cells[i], slip)).collect();
        found.sort_unstable();
        let is_counted = |j: &&usize| match slip {
            Some(Slip::ItselfCounted) => **j >= i,
            Some(Slip::BothEnds) => **j != i,
            _ => **j > i,
        };
        pairs += found.iter().filter(is_counted).count() as u64;
        found.retain(|j| *j != i);
        reach.push(found);
    }
    (reach, pairs)
}

/// The order of the points by their cells, cut where another axis than the last one changes. A row is looked for once: where it stands twice, as it
/// may in an order that passes over an axis, its first part is what is found.
fn rows(cells: &[Vec<f64>], slip: Option<Slip>) -> Vec<Vec<usize>> {
    let is_passed_over = |axis: usize| axis == 1 && slip == Some(Slip::SecondUnsorted);
    let key = |i: usize| -> Vec<f64> { (0..cells[i].len()).filter(|axis| !is_passed_over(*axis)).map(|axis| cells[i][axis]).collect() };
    let mut order: Vec<usize> = (0..cells.len()).collect();
    order.sort_by(|a, b| key(*a).partial_cmp(&key(*b)).unwrap());
    let front = |i: usize| &cells[i][..cells[i].len() - 1];
    let mut rows: Vec<Vec<usize>> = vec![];
    for i in order {
        match rows.last_mut() {
            Some(row) if front(row[0]) == front(i) => row.push(i),
            _ => rows.push(vec![i]),
        }
    }
    let is_first = |k: usize| rows[..k].iter().all(|row| front(row[0]) != front(rows[k][0]));
    (0..rows.len()).filter(|k| is_first(*k)).map(|k| rows[k].clone()).collect()
}

/// The run of a row: from its first point within reach of the cell to the last before one that is not.
fn run(row: &[usize], cells: &[Vec<f64>], cell: &[f64], slip: Option<Slip>) -> Vec<usize> {
    let most = if slip == Some(Slip::WithinThree) { 3.0 } else { 2.0 };
    let is_near = |i: &&usize| cells[**i].iter().zip(cell).all(|(a, b)| (a - b).abs() <= most);
    let mut run: Vec<usize> = row.iter().skip_while(|i| !is_near(i)).take_while(is_near).copied().collect();
    if slip == Some(Slip::EndsEarly) {
        run.pop();
    }
    run
}
