//! Wrong answers that look right: what a product with one misreading of document 01 would say.

use crate::wrong_merging::{merging, Misread};
use crate::{
    wrong_broken, wrong_by_cell, wrong_files, wrong_hem_sheet, wrong_hems, wrong_house, wrong_in_place, wrong_large, wrong_marks,
    wrong_removal, wrong_scans, wrong_smoothing,
};
use judge::mesh::{Corner, Merged, Pushed, Verdict, INDICES, WIDTH};
use judge::reading::merging::put_together_same_attrs;
use judge::reading::{cleaning, edges, numbers, panel_file, panels};
use judge::{Answer, Call, Count, Mesh, Numbers, Question, MISSING};
use std::collections::{BTreeMap, BTreeSet};

/// What the misreading answers; none where it changes nothing. The right answer is given.
pub type Wrong = fn(&Question, &Answer) -> Option<Answer>;

/// The misreadings of a call, each by its name.
pub fn answers(call: Call) -> impl Iterator<Item = &'static (&'static str, Wrong)> {
    of_its_own(call).iter().chain(wrong_broken::answers(call)).chain(wrong_large::answers(call)).chain(wrong_marks::answers(call))
}

/// Those that no other call has.
fn of_its_own(call: Call) -> &'static [(&'static str, Wrong)] {
    match call {
        Call::MeshNumber => &[
            ("the order of sizes asked before their range", order_before_range),
            ("sizes added in 32 bits", sizes_that_wrap),
            ("a missing position let through", missing_position),
        ],
        Call::Face => &[("empty where an index is off, too", |q, _| (number(q) == 5).then(|| Answer::face(0, 0)))],
        Call::RemoveUnusedAttrs => &[("entries kept in their old order", old_order)],
        Call::RemoveDegenerateFaces => wrong_removal::REMOVAL,
        Call::PutTogetherSameAttrs => &[
            ("the lowest index for the representative", lowest_index),
            ("positions merged raw", raw_positions),
            ("texture points passed over", textures_kept),
            ("cells rounded to the nearest", rounded_cells),
            ("cells rounded down", |q, right| accepted(right, || merging(q, Misread::CellRoundedDown))),
            ("points at the tolerance are near", |q, right| accepted(right, || merging(q, Misread::NearAtTheTolerance))),
            ("the last of equal distances", |q, right| accepted(right, || merging(q, Misread::LastOfEquals))),
            ("a walk without a stack", |q, right| accepted(right, || merging(q, Misread::WalkInOrder))),
            ("groups that are not connected", |q, right| accepted(right, || merging(q, Misread::NotConnected))),
            ("distances to the lowest point", |q, right| accepted(right, || merging(q, Misread::NoCentre))),
        ],
        Call::ShellCondition => &[
            ("uses counted modulo two", |q, right| accepted(right, || Answer::verdict(verdict_modulo_two(&q.mesh)))),
            ("two uses of an edge from a to a taken for opposite", opposite_self_edges),
        ],
        Call::HemEdges => &[
            ("the direction of the first use", |q, right| accepted(right, || Answer::hem_edges(&hems_by_first_use(&q.mesh)))),
            ("edges used exactly once", |q, right| accepted(right, || Answer::hem_edges(&hems_used_once(&q.mesh)))),
        ],
        Call::ExtractBoundaries => &[("an earlier edge not replaced", |q, right| accepted(right, || earlier_kept(&q.mesh)))],
        Call::HouseWires => wrong_house::HOUSE,
        Call::Components => &[
            ("normals looked at without the setting", |q, right| {
                accepted(right, || Answer::rows(&panels::components(&q.mesh, true)))
            }),
            ("a missing normal like normal 0", missing_normal_is_0),
            ("a panel's faces in ascending order", |_, right| accepted(right, || ascending_panels(right))),
            ("joined to the last face that had the key", |q, right| accepted(right, || joined_to_the_last(q))),
        ],
        Call::ReadPanel => {
            &[("an index asked before bytes after the end", index_before_13), ("a negative zero read as zero", no_negative_zero)]
        }
        Call::WritePanel => wrong_files::WRITER,
        Call::CleanPanel => wrong_files::CLEANER,
        Call::Sheet => &[
            ("panels by normals", panels_by_normals),
            ("hems by the smallest end", |q, right| hems_by_the_smallest_end(panel_file::read(&q.file).ok()?, right)),
        ],
        Call::ReadScan => wrong_scans::READER,
        Call::ScanSheet => wrong_scans::SHEET,
        Call::PutTogetherByCell => wrong_by_cell::BY_CELL,
        Call::CompactInPlace => wrong_in_place::IN_PLACE,
        Call::ListHems => wrong_hems::HEMS,
        Call::HemSheet => wrong_hem_sheet::SHEET,
        Call::LoopSubdivision => wrong_smoothing::SMOOTHING,
        Call::Push => &[
            ("quadrangles among the larger faces", |q, right| accepted(right, || pushed_by(q, |n| (n >= 3).then(|| n.min(4))))),
            ("larger faces by their size", |q, right| accepted(right, || pushed_by(q, |n| (n >= 3).then(|| n)))),
            ("faces of two corners kept", |q, right| accepted(right, || pushed_by(q, |n| (n >= 2).then(|| n.clamp(3, 5))))),
            ("faces of fewer than three corners refused", small_faces_refused),
            ("indices looked at", |q, right| {
                (number(q) == 5).then(|| Answer::refused(Call::Push, 5)).filter(|_| right.number == 0)
            }),
        ],
    }
}

pub fn accepted(right: &Answer, wrong: impl Fn() -> Answer) -> Option<Answer> {
    (right.number == 0).then(wrong)
}

pub fn number(question: &Question) -> u32 {
    numbers::mesh_number(&question.mesh)
}

/// Faces grouped by a key of their size; those without one are dropped.
fn pushed_by(question: &Question, key: fn(usize) -> Option<usize>) -> Answer {
    let mut faces: Vec<Vec<Corner>> = question.mesh.faces().into_iter().filter(|face| key(face.len()).is_some()).collect();
    faces.sort_by_key(|face| key(face.len()));
    let made = Mesh::default().with_faces(&faces);
    Answer::pushed(Pushed { corners: made.corners, sizes: made.sizes })
}

fn small_faces_refused(question: &Question, right: &Answer) -> Option<Answer> {
    let has_small = question.mesh.sizes.iter().any(|size| *size < 3);
    (right.number == 0 && has_small).then(|| Answer::refused(Call::Push, 3))
}

fn order_before_range(question: &Question, right: &Answer) -> Option<Answer> {
    let is_off = question.mesh.sizes.windows(2).any(|pair| pair[0].min(5) > pair[1].min(5));
    (right.number == 3 && is_off).then(|| Answer::mesh_number(4))
}

fn sizes_that_wrap(question: &Question, right: &Answer) -> Option<Answer> {
    let mesh = &question.mesh;
    let sum = mesh.sizes.iter().fold(0u64, |sum, size| sum + *size as u64);
    let wraps = sum != mesh.corner_count() as u64 && sum as u32 as usize == mesh.corner_count();
    (right.number == 2 && mesh.corners.len() % WIDTH == 0 && wraps).then(|| Answer::mesh_number(3))
}

fn missing_position(question: &Question, right: &Answer) -> Option<Answer> {
    let mut mesh = question.mesh.clone();
    mesh.corners.iter_mut().step_by(WIDTH).filter(|position| **position == MISSING).for_each(|position| *position = 0);
    (right.number == 5).then(|| Answer::mesh_number(numbers::mesh_number(&mesh)))
}

/// Used entries are renumbered in the order in which they stand, not by first use. (The lists are those of the right answer.)
fn old_order(question: &Question, right: &Answer) -> Option<Answer> {
    accepted(right, || {
        let corners = &question.mesh.corners;
        let used = |column: usize| -> BTreeSet<u32> { corners.iter().skip(column).step_by(WIDTH).copied().collect() };
        let ranks = [used(0), used(1), used(2)];
        let rank = |(i, number): (usize, &u32)| match (i % WIDTH, *number) {
            (INDICES, mark) => mark,
            (_, MISSING) => MISSING,
            (column, index) => ranks[column].range(..index).count() as u32,
        };
        let mut answer = right.clone();
        answer.lists[0] = Numbers::Words(corners.iter().enumerate().map(rank).collect());
        answer
    })
}

fn words(answer: &Answer) -> &[u32] {
    match &answer.lists[0] {
        Numbers::Words(words) => words,
        _ => &[],
    }
}

/// Of the indices that have one representative, the lowest that some corner has.
fn lowest_index(question: &Question, right: &Answer) -> Option<Answer> {
    let (old, new) = (&question.mesh.corners, words(right));
    let lowest = |i: usize| match i % WIDTH {
        INDICES => Some(new[i]),
        column => (column..new.len()).step_by(WIDTH).filter(|k| new[*k] == new[i]).map(|k| old[k]).min(),
    };
    accepted(right, || {
        let mut answer = right.clone();
        answer.lists[0] = Numbers::Words((0..new.len()).map(|i| lowest(i).unwrap()).collect());
        answer
    })
}

/// Positions merged as normals are.
fn raw_positions(question: &Question, right: &Answer) -> Option<Answer> {
    let mut mesh = question.mesh.clone();
    mesh.normals = mesh.positions.clone();
    (0..mesh.corners.len()).step_by(WIDTH).for_each(|i| mesh.corners[i + 2] = mesh.corners[i]);
    if right.number != 0 || numbers::merging_number(&mesh, question.tolerance) != 0 {
        return None;
    }
    let raw: Merged = put_together_same_attrs(&mesh, question.tolerance);
    let mut new = words(right).to_vec();
    (0..new.len()).step_by(WIDTH).for_each(|i| new[i] = raw.corners[i + 2]);
    let mut answer = right.clone();
    answer.lists[0] = Numbers::Words(new);
    answer.counts[0] = Count::Is(raw.pairs[2]);
    Some(answer)
}

fn textures_kept(question: &Question, right: &Answer) -> Option<Answer> {
    accepted(right, || {
        let mut new = words(right).to_vec();
        (1..new.len()).step_by(WIDTH).for_each(|i| new[i] = question.mesh.corners[i]);
        let mut answer = right.clone();
        answer.lists[0] = Numbers::Words(new);
        answer
    })
}

/// Pairs of texture points, by cells that are rounded and not cut.
fn rounded_cells(question: &Question, right: &Answer) -> Option<Answer> {
    let cells: Vec<i64> = question.mesh.textures.iter().map(|c| (c / question.tolerance).round() as i64).collect();
    let cells: Vec<&[i64]> = cells.chunks(2).collect();
    accepted(right, || {
        let compared = |i: usize, j: usize| (0..2).all(|axis| (cells[i][axis] - cells[j][axis]).abs() <= 2);
        let pairs = (0..cells.len()).flat_map(|i| (0..i).map(move |j| (i, j))).filter(|(i, j)| compared(*i, *j)).count();
        let mut answer = right.clone();
        answer.counts[1] = Count::Is(pairs as u64);
        answer
    })
}

/// The uses of each edge, as (start, end).
fn uses(mesh: &Mesh) -> BTreeMap<[u32; 2], Vec<[u32; 2]>> {
    let mut uses: BTreeMap<[u32; 2], Vec<[u32; 2]>> = BTreeMap::new();
    for face in mesh.faces() {
        for i in 0..face.len() {
            let (start, end) = (face[i][0], face[(i + 1) % face.len()][0]);
            uses.entry([start.min(end), start.max(end)]).or_default().push([start, end]);
        }
    }
    uses
}

fn verdict_modulo_two(mesh: &Mesh) -> Verdict {
    let uses = uses(mesh);
    if uses.values().any(|edge| edge.len() % 2 == 0 && edge[edge.len() - 2] == edge[edge.len() - 1]) {
        Verdict::Regular
    } else if uses.values().all(|edge| edge.len() % 2 == 0) {
        Verdict::Closed
    } else {
        Verdict::Oriented
    }
}

fn opposite_self_edges(question: &Question, right: &Answer) -> Option<Answer> {
    if right.number != 0 || right.counts[0] != Count::Is(Verdict::Regular as u64) {
        return None;
    }
    let uses = uses(&question.mesh);
    let is_same = |edge: &[[u32; 2]]| edge.len() == 2 && edge[0] == edge[1] && edge[0][0] != edge[0][1];
    let verdict = if uses.values().any(|edge| edge.len() == 1) { Verdict::Oriented } else { Verdict::Closed };
    (!uses.values().any(|edge| is_same(edge))).then(|| Answer::verdict(verdict))
}

fn hems_by_first_use(mesh: &Mesh) -> Vec<[u32; 2]> {
    uses(mesh).into_values().filter(|edge| edge.len() % 2 == 1).map(|edge| edge[0]).collect()
}

fn hems_used_once(mesh: &Mesh) -> Vec<[u32; 2]> {
    uses(mesh).into_values().filter(|edge| edge.len() == 1).map(|edge| edge[0]).collect()
}

fn earlier_kept(mesh: &Mesh) -> Answer {
    let mut next: BTreeMap<u32, u32> = BTreeMap::new();
    edges::hem_edges(mesh).iter().for_each(|[start, end]| {
        next.entry(*start).or_insert(*end);
    });
    let mut wires = vec![];
    while let Some(start) = next.keys().next().copied() {
        let mut wire = vec![start];
        let mut at = next.remove(&start).unwrap();
        while at != start {
            wire.push(at);
            at = next.remove(&at).unwrap_or(start);
        }
        wires.push(wire);
    }
    Answer::rows(&wires)
}

fn missing_normal_is_0(question: &Question, right: &Answer) -> Option<Answer> {
    let mut mesh = question.mesh.clone();
    (2..mesh.corners.len()).step_by(WIDTH).filter(|i| question.mesh.corners[*i] == MISSING).for_each(|i| mesh.corners[i] = 0);
    accepted(right, || Answer::rows(&panels::components(&mesh, question.use_normal)))
}

/// Each panel's faces in ascending order.
fn ascending_panels(right: &Answer) -> Answer {
    let lengths: Vec<usize> = match &right.lists[1] {
        Numbers::Words(lengths) => lengths.iter().map(|length| *length as usize).collect(),
        _ => vec![],
    };
    let mut faces = words(right).iter().copied();
    let mut panels: Vec<Vec<u32>> = lengths.iter().map(|length| faces.by_ref().take(*length).collect()).collect();
    panels.iter_mut().for_each(|panel| panel.sort_unstable());
    Answer::rows(&panels)
}

/// Each later use of a key joins its face to the last face that had the key, and takes its place. (Without normals.)
fn joined_to_the_last(question: &Question) -> Answer {
    let mesh = &question.mesh;
    if question.use_normal {
        return Answer::rows(&panels::components(mesh, true));
    }
    let mut neighbours = vec![vec![]; mesh.sizes.len()];
    let mut last_with: BTreeMap<[u32; 2], usize> = BTreeMap::new();
    for (this, face) in mesh.faces().iter().enumerate() {
        for i in 0..face.len() {
            let (start, end) = (face[i][0], face[(i + 1) % face.len()][0]);
            if let Some(last) = last_with.insert([start.min(end), start.max(end)], this) {
                neighbours[this].push(last);
                neighbours[last].push(this);
            }
        }
    }
    let mut seen = vec![false; neighbours.len()];
    let mut panels: Vec<Vec<u32>> = vec![];
    for lowest in 0..neighbours.len() {
        let (mut panel, mut stack) = (vec![], vec![]);
        let mut see = |face: usize, stack: &mut Vec<usize>, panel: &mut Vec<u32>| {
            if !std::mem::replace(&mut seen[face], true) {
                panel.push(face as u32);
                stack.push(face);
            }
        };
        see(lowest, &mut stack, &mut panel);
        while let Some(face) = stack.pop() {
            neighbours[face].iter().for_each(|next| see(*next, &mut stack, &mut panel));
        }
        panels.extend(Some(panel).filter(|panel| !panel.is_empty()));
    }
    Answer::rows(&panels)
}

fn index_before_13(question: &Question, right: &Answer) -> Option<Answer> {
    let file = &question.file;
    let is_off = || (0..file.len()).rev().any(|end| panel_file::read(&file[..end]).err() == Some(5));
    (right.number == 13 && is_off()).then(|| Answer::refused(Call::ReadPanel, 5))
}

fn no_negative_zero(_: &Question, right: &Answer) -> Option<Answer> {
    let mut answer = right.clone();
    for list in answer.lists.iter_mut() {
        if let Numbers::Floats(floats) = list {
            floats.iter_mut().filter(|x| **x == 0.0).for_each(|x| *x = 0.0);
        }
    }
    accepted(right, || answer.clone())
}

fn text(right: &Answer) -> String {
    match &right.lists[0] {
        Numbers::Bytes(bytes) => String::from_utf8_lossy(bytes).into_owned(),
        _ => String::new(),
    }
}

/// The lines of the hems of what was read, by the rule that request 5 took back.
pub fn hems_by_the_smallest_end(read: Mesh, right: &Answer) -> Option<Answer> {
    let text = text(right);
    let at = text.find("hem ").filter(|_| right.number == 0)?;
    let wires = wrong_house::smallest_end(&cleaning::cleaned(read));
    let line = |wire: &Vec<u32>| format!("hem{}\n", wire.iter().map(|position| format!(" {position}")).collect::<String>());
    Some(Answer::sheet(text[..at].to_string() + &wires.iter().map(line).collect::<String>()))
}

/// The line of the panels, by the whole mesh with its normals.
fn panels_by_normals(question: &Question, right: &Answer) -> Option<Answer> {
    let mesh = panel_file::read(&question.file).ok()?;
    let text = text(right);
    let unfolded = cleaning::remove_degenerate_faces(&mesh);
    let mesh = Mesh { corners: unfolded.corners, sizes: unfolded.sizes, ..mesh };
    let count = |use_normal: bool| format!("panels {}\n", panels::components(&mesh, use_normal).len());
    accepted(right, || Answer::sheet(text.replace(&count(false), &count(true))))
}
