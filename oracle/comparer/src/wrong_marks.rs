//! Misreadings of 'seam marks on corners': a mark that is lost, left behind, taken from another corner or looked at, in every call that has corners; and of
//! kind 6, in what reads and in the writer.

use crate::files::{corner_bytes, count_bytes, face, face_of_kind, record};
use crate::one_by_one::header;
use crate::wrong::{accepted, Wrong};
use crate::wrong_files::{cleaned, kind, written};
use crate::wrong_large::{too_large, unknown, whole};
use judge::mesh::{Corner, Unfolded, INDICES, WIDTH};
use judge::reading::cleaning::{remove_degenerate_faces, unfolded_by};
use judge::reading::{self, edges, panels, writing};
use judge::{Answer, Call, Count, Mesh, Numbers, Question, MISSING};
use std::collections::BTreeMap;

/// The most corners of a face, and the most of one of kind 4.
const MOST: usize = 300;
const SMALL: usize = 32;

/// The misreadings of a call, each by its name.
pub fn answers(call: Call) -> &'static [(&'static str, Wrong)] {
    match call {
        Call::MeshNumber => LOOKED_AT,
        Call::Face => &[("three numbers to a corner", |_, right| Some(in_threes(right)))],
        Call::RemoveUnusedAttrs => COMPACTION,
        Call::CompactInPlace => IN_PLACE,
        Call::RemoveDegenerateFaces => REMOVAL,
        Call::PutTogetherSameAttrs | Call::PutTogetherByCell => MERGING,
        Call::ShellCondition => &[("edges between unlike marks told apart", |q, right| {
            accepted(right, || Answer::verdict(edges::verdict(&told_apart(&q.mesh).0)))
        })],
        Call::HemEdges => &[("edges between unlike marks told apart", |q, right| accepted(right, || hems_told_apart(&q.mesh)))],
        Call::Components => &[("edges between unlike marks told apart", |q, right| {
            accepted(right, || Answer::rows(&panels::components(&told_apart(&q.mesh).0, q.use_normal)))
        })],
        Call::ExtractBoundaries | Call::HouseWires => &[],
        Call::ReadPanel => READER,
        Call::CleanPanel => CLEANER,
        Call::Sheet => SHEET,
        Call::WritePanel => WRITER,
        Call::Push => PUSH,
        // Those of marks stand with its others.
        Call::LoopSubdivision => &[],
        Call::ReadScan => &[("a mark that is missing", |_, right| with_marks(right, 3, |marks| marks.fill(MISSING)))],
        Call::ScanSheet => &[],
        // Edges and panels are looked at by the calls above, and the reader by its own.
        Call::ListHems | Call::HemSheet => &[],
    }
}

/// A mark is held to a list's count, as an index is.
const LOOKED_AT: &[(&str, Wrong)] = &[("a mark held to the count of positions", |q, right| {
    let count = q.mesh.positions.len() as u32 / 3;
    (right.number == 0 && q.mesh.marks().any(|mark| mark >= count && mark != MISSING)).then(|| Answer::mesh_number(5))
})];

const COMPACTION: &[(&str, Wrong)] = &[
    ("marks cleared", |_, right| with_marks(right, 0, |marks| marks.fill(0))),
    ("marks renumbered by first use", |_, right| with_marks(right, 0, by_first_use)),
];

const IN_PLACE: &[(&str, Wrong)] = &[
    ("marks cleared", |_, right| with_marks(right, 3, |marks| marks.fill(0))),
    ("marks renumbered by first use", |_, right| with_marks(right, 3, by_first_use)),
];

const MERGING: &[(&str, Wrong)] = &[
    ("marks cleared", |_, right| with_marks(right, 0, |marks| marks.fill(0))),
    ("the mark of a corner that has the representative", |q, right| accepted(right, || marks_of_representatives(q, right))),
    ("unlike marks kept apart", |q, right| accepted(right, || corners_with_marks_kept(q, right))),
];

const PUSH: &[(&str, Wrong)] = &[
    ("marks cleared", |_, right| with_marks(right, 0, |marks| marks.fill(0))),
    ("marks left where they stood", |q, right| with_marks(right, 0, |marks| left_behind(&q.mesh, marks))),
];

const REMOVAL: &[(&str, Wrong)] = &[
    ("marks cleared", |_, right| with_marks(right, 0, |marks| marks.fill(0))),
    ("marks left where they stood", |q, right| with_marks(right, 0, |marks| left_behind(&q.mesh, marks))),
    ("the mark of q1 on q0", |q, right| accepted(right, || of_changed(q, mark_of_q1))),
    ("the mark of q3 on q0", |q, right| accepted(right, || of_changed(q, mark_of_q3))),
    ("the second ring's first corner with corner i's mark", |q, right| {
        accepted(right, || Answer::unfolded(unfolded_by(&q.mesh, ring_with_mark_i)))
    }),
    ("equal positions with unlike marks not taken for equal", |q, right| accepted(right, || folded_with_marks(&q.mesh))),
    ("a triangle gone whose marks are equal", |q, right| accepted(right, || without_equal_marks(&q.mesh))),
];

const WRITER: &[(&str, Wrong)] = &[
    ("kind 4 for a marked face, its marks dropped", |_, right| {
        rewritten(right, |kind, face| (kind == 6 && face.len() <= SMALL).then(|| face_of_kind(4, face)))
    }),
    ("kind 5 for a marked face of more than 32 corners, its marks dropped", |_, right| {
        rewritten(right, |kind, face| (kind == 6 && face.len() > SMALL).then(|| face_of_kind(5, face)))
    }),
    ("kind 6 for a face with no mark", |_, right| rewritten(right, |kind, face| (kind < 6).then(|| face_of_kind(6, face)))),
    ("kind 6 only where the first corner is marked", |_, right| {
        rewritten(right, |kind, face| {
            let unmarked: Vec<Corner> = face.iter().map(|corner| [corner[0], corner[1], corner[2], 0]).collect();
            (kind == 6 && face[0][INDICES] == 0).then(|| self::face(&unmarked))
        })
    }),
    ("the mark first", |_, right| {
        rewritten(right, |kind, face| {
            let turned: Vec<Corner> = face.iter().map(|corner| [corner[3], corner[0], corner[1], corner[2]]).collect();
            (kind == 6).then(|| face_of_kind(6, &turned))
        })
    }),
    ("kind 6 with a count of one byte", |_, right| {
        rewritten(right, |kind, face| {
            (kind == 6).then(|| record(6, &[&[face.len() as u8], &face_of_kind(6, face)[6..]].concat()))
        })
    }),
    ("no room asked for the marks", |q, right| {
        let (room, length) = (q.rooms[0], writing::length(&q.mesh));
        let of_marks = length - writing::length(&cleared(&q.mesh));
        (right.number == 9 && length - of_marks <= room).then(|| Answer::bytes(writing::write(&q.mesh)))
    }),
];

/// The misreadings of a call that reads a file.
macro_rules! reader {
    ($call: expr $(, $more: expr)*) => {
        &[
            ("kind 6 unknown, as it was", |q, _| reread($call, q, |_, _, body| unknown(true, body))),
            ("kind 6 with all marks 0 taken", |q, _| {
                reread($call, q, |n, m, body| (n == m && m <= MOST && has_no_mark(body)).then(|| face(&corners(body))))
            }),
            ("all marks 0 asked after n over 300, so 3 for 12", |q, _| {
                reread($call, q, |n, m, body| (n == m && m > MOST && has_no_mark(body)).then(too_large))
            }),
            ("kind 6 with the last mark alone refused", |q, _| {
                reread($call, q, |n, m, body| unknown(n == m && has_no_mark(&body[..body.len() - 4 * WIDTH]), body))
            }),
            ("kind 6 of two corners dropped, as in kind 4", |q, _| reread_short($call, q)),
            ("kind 6 from 33 corners on alone, as kind 5", |q, _| reread($call, q, |_, m, body| unknown(m <= SMALL, body))),
            ("3 for more than 32 corners in kind 6", |q, _| {
                reread($call, q, |n, m, body| (n == m && m > SMALL && !has_no_mark(body)).then(too_large))
            }),
            ("a length of more than 300 corners in kind 6 wrong, so 12 for 301", |q, _| {
                reread($call, q, |_, m, body| unknown(m > MOST, body))
            }),
            ("3 asked before n is held to the length of kind 6", |q, _| {
                reread($call, q, |n, m, _| (n != m && n > MOST).then(too_large))
            }),
            ("the count of kind 6 read from one byte", |q, _| {
                reread($call, q, |n, _, body| Some(record(6, &[&[n as u8, 0], &body[2..]].concat())))
            }),
            ("the high byte of the count of kind 6 first", |q, _| {
                reread($call, q, |n, _, body| Some(record(6, &[&(n as u16).to_be_bytes(), &body[2..]].concat())))
            }),
            ("3 asked before the whole body of kind 6 is there", |q, _| last_too_large($call, q)),
            $($more,)*
        ]
    };
}

const READER: &[(&str, Wrong)] = reader!(
    Call::ReadPanel,
    ("marks cleared", |_, right| with_marks(right, 3, |marks| marks.fill(0))),
    ("a face without marks has those of the face before it", |_, right| with_marks(right, 3, carried_on)),
    ("no mark read as missing", |_, right| {
        with_marks(right, 3, |marks| marks.iter_mut().filter(|mark| **mark == 0).for_each(|mark| *mark = MISSING))
    })
);
const CLEANER: &[(&str, Wrong)] = reader!(
    Call::CleanPanel,
    ("marks cleared", |q, right| cleaned(q, right, |mesh| cleared(&reading::cleaning::cleaned(mesh)))),
    ("the mark of q1 on q0", |q, right| cleaned(q, right, |mesh| reading::cleaning::cleaned(with_faces(&mesh, mark_of_q1)))),
    ("unused entries kept that a mark names", |q, right| cleaned(q, right, kept_by_marks))
);
const SHEET: &[(&str, Wrong)] = reader!(Call::Sheet);

/// The marks of an answer, whose corners stand in this list, changed.
fn with_marks(right: &Answer, list: usize, change: impl Fn(&mut Vec<u32>)) -> Option<Answer> {
    accepted(right, || {
        let mut answer = right.clone();
        if let Numbers::Words(corners) = &mut answer.lists[list] {
            let mut marks: Vec<u32> = corners.iter().skip(INDICES).step_by(WIDTH).copied().collect();
            change(&mut marks);
            corners.iter_mut().skip(INDICES).step_by(WIDTH).zip(marks).for_each(|(place, mark)| *place = mark);
        }
        answer
    })
}

fn cleared(mesh: &Mesh) -> Mesh {
    let mut mesh = mesh.clone();
    mesh.corners.iter_mut().skip(INDICES).step_by(WIDTH).for_each(|mark| *mark = 0);
    mesh
}

fn in_threes(right: &Answer) -> Answer {
    let count = |i: usize| match right.counts[i] {
        Count::Is(count) => count as usize / WIDTH * INDICES,
        Count::Untouched => 0,
    };
    Answer::face(count(0), count(1))
}

fn by_first_use(marks: &mut Vec<u32>) {
    let mut new_of: BTreeMap<u32, u32> = BTreeMap::from([(MISSING, MISSING)]);
    for mark in marks.iter_mut() {
        let next = new_of.len() as u32 - 1;
        *mark = *new_of.entry(*mark).or_insert(next);
    }
}

/// The corner at a place of the result has the mark that stood at this place.
fn left_behind(mesh: &Mesh, marks: &mut Vec<u32>) {
    marks.iter_mut().zip(mesh.marks()).for_each(|(mark, old)| *mark = old);
}

/// A mark of 0 is the last one that was not.
fn carried_on(marks: &mut Vec<u32>) {
    let mut last = 0;
    for mark in marks.iter_mut() {
        last = if *mark == 0 { last } else { *mark };
        *mark = last;
    }
}

fn words(answer: &Answer) -> &[u32] {
    match &answer.lists[0] {
        Numbers::Words(words) => words,
        _ => &[],
    }
}

/// A corner whose position becomes another has the mark of the first corner that has that one.
fn marks_of_representatives(question: &Question, right: &Answer) -> Answer {
    let old: Vec<&[u32]> = question.mesh.corners.chunks(WIDTH).collect();
    let mut answer = right.clone();
    let corners = words(right).chunks(WIDTH).zip(&old).flat_map(|(new, this)| {
        let other = old.iter().find(|corner| corner[0] == new[0]).filter(|_| new[0] != this[0]);
        [new[0], new[1], new[2], other.map_or(this[INDICES], |corner| corner[INDICES])]
    });
    answer.lists[0] = Numbers::Words(corners.collect());
    answer
}

/// A marked corner keeps its indices.
fn corners_with_marks_kept(question: &Question, right: &Answer) -> Answer {
    let mut answer = right.clone();
    let corners = words(right).chunks(WIDTH).zip(question.mesh.corners.chunks(WIDTH));
    let kept = corners.flat_map(|(new, old)| if old[INDICES] == 0 { new.to_vec() } else { old.to_vec() });
    answer.lists[0] = Numbers::Words(kept.collect());
    answer
}

/// The same mesh with each face changed.
fn with_faces(mesh: &Mesh, change: fn(&mut Vec<Corner>)) -> Mesh {
    let mut faces = mesh.faces();
    faces.iter_mut().for_each(change);
    mesh.with_faces(&faces)
}

/// What the removal answers to faces that were changed.
fn of_changed(question: &Question, change: fn(&mut Vec<Corner>)) -> Answer {
    Answer::unfolded(remove_degenerate_faces(&with_faces(&question.mesh, change)))
}

fn mark_of_q1(face: &mut Vec<Corner>) {
    if face.len() == 4 && face[0][0] == face[1][0] {
        face[0][INDICES] = face[1][INDICES];
    }
}

fn mark_of_q3(face: &mut Vec<Corner>) {
    if face.len() == 4 && face[0][0] == face[3][0] {
        face[0][INDICES] = face[3][INDICES];
    }
}

fn ring_with_mark_i(r: Vec<Corner>) -> Vec<Vec<Corner>> {
    let mut pairs = (0..r.len()).flat_map(|i| (i + 1..r.len()).map(move |j| (i, j)));
    match pairs.find(|(i, j)| r[*i][0] == r[*j][0]) {
        None => vec![r],
        Some((i, j)) => {
            let mut other = [&r[j..], &r[..i]].concat();
            other[0][INDICES] = r[i][INDICES];
            [ring_with_mark_i(r[i..j].to_vec()), ring_with_mark_i(other)].concat()
        }
    }
}

/// Corners of one position with unlike marks have positions of their own; and the old position of each.
fn told_apart(mesh: &Mesh) -> (Mesh, Vec<u32>) {
    let (mut numbers, mut old): (BTreeMap<(u32, u32), u32>, Vec<u32>) = (BTreeMap::new(), vec![]);
    let mut faces = mesh.faces();
    for corner in faces.iter_mut().flatten() {
        let next = old.len() as u32;
        let number = *numbers.entry((corner[0], corner[INDICES])).or_insert(next);
        if number == next {
            old.push(corner[0]);
        }
        corner[0] = number;
    }
    (mesh.with_faces(&faces), old)
}

fn hems_told_apart(mesh: &Mesh) -> Answer {
    let (apart, old) = told_apart(mesh);
    let mut hems: Vec<[u32; 2]> = edges::hem_edges(&apart).iter().map(|hem| hem.map(|end| old[end as usize])).collect();
    hems.sort_by_key(|[start, end]| (*start.min(end), *start.max(end)));
    Answer::hem_edges(&hems)
}

fn folded_with_marks(mesh: &Mesh) -> Answer {
    let (apart, old) = told_apart(mesh);
    let mut made = remove_degenerate_faces(&apart);
    made.corners.iter_mut().step_by(WIDTH).for_each(|position| *position = old[*position as usize]);
    Answer::unfolded(made)
}

fn without_equal_marks(mesh: &Mesh) -> Answer {
    let made = remove_degenerate_faces(mesh);
    let faces = Mesh { corners: made.corners, sizes: made.sizes, ..Mesh::default() }.faces();
    let is_equal =
        |face: &[Corner]| face.len() == 3 && face[0][INDICES] != 0 && face.iter().all(|c| c[INDICES] == face[0][INDICES]);
    let (origins, left): (Vec<u32>, Vec<Vec<Corner>>) =
        made.origins.into_iter().zip(faces).filter(|(_, face)| !is_equal(face)).unzip();
    let left = Mesh::default().with_faces(&left);
    Answer::unfolded(Unfolded { corners: left.corners, sizes: left.sizes, origins })
}

/// Compaction that takes the fourth number for a position too: what a mark names is used.
fn kept_by_marks(mesh: Mesh) -> Mesh {
    let count = mesh.positions.len() / 3;
    let unfolded = remove_degenerate_faces(&mesh);
    let mut named: Vec<u32> =
        unfolded.corners.iter().enumerate().filter(|(i, _)| [0, INDICES].contains(&(i % WIDTH))).map(|(_, n)| *n).collect();
    named.retain(|position| (*position as usize) < count);
    let clean = reading::cleaning::cleaned(mesh.clone());
    let mut positions: Vec<u32> = vec![];
    named.into_iter().for_each(|position| {
        if !positions.contains(&position) {
            positions.push(position);
        }
    });
    let kept: Vec<f64> = positions.iter().flat_map(|position| mesh.positions[3 * *position as usize..][..3].to_vec()).collect();
    let new = |old: u32| positions.iter().position(|position| *position == old).unwrap() as u32;
    let mut corners = clean.corners.clone();
    corners.iter_mut().step_by(WIDTH).zip(unfolded.corners.iter().step_by(WIDTH)).for_each(|(place, old)| *place = new(*old));
    Mesh { positions: kept, corners, ..clean }
}

/// The right file, in which some faces, by their kind and their corners, are other records.
fn rewritten(right: &Answer, change: fn(usize, &[Corner]) -> Option<Vec<u8>>) -> Option<Answer> {
    written(right, |records| {
        for record in records.iter_mut().filter(|record| kind(record) >= 4) {
            let (kind, body) = (kind(record), &record[4..]);
            let corners = corners_of(kind, body);
            if let Some(other) = change(kind, &corners) {
                *record = other;
            }
        }
    })
}

/// The corners in the body of a face.
fn corners_of(kind: usize, body: &[u8]) -> Vec<Corner> {
    let (count, width) = (count_bytes(kind), corner_bytes(kind));
    let corner = |bytes: &[u8]| {
        let mut corner = [0; WIDTH];
        let numbers = bytes.chunks_exact(4).map(|four| u32::from_le_bytes(four.try_into().unwrap()));
        corner.iter_mut().zip(numbers).for_each(|(place, number)| *place = number);
        corner
    };
    body[count..].chunks_exact(width).map(corner).collect()
}

fn corners(body: &[u8]) -> Vec<Corner> {
    corners_of(6, body)
}

/// Whether all marks in the body of a face of kind 6 are 0.
fn has_no_mark(body: &[u8]) -> bool {
    corners(body).iter().all(|corner| corner[INDICES] == 0)
}

/// What is answered to a file in which some faces of kind 6 are other records: by n, the number of corners that the length says, and the body. Faces of a
/// length that kind 6 cannot have are left.
fn reread(call: Call, question: &Question, change: fn(usize, usize, &[u8]) -> Option<Vec<u8>>) -> Option<Answer> {
    reread_from(3, call, question, change)
}

/// The same of faces that have two corners: they are left out.
fn reread_short(call: Call, question: &Question) -> Option<Answer> {
    reread_from(2, call, question, |n, m, _| (n == m && m == 2).then(|| face(&[])))
}

fn reread_from(
    least: usize,
    call: Call,
    question: &Question,
    change: fn(usize, usize, &[u8]) -> Option<Vec<u8>>,
) -> Option<Answer> {
    let (end, records) = whole(&question.file);
    let mut file = vec![];
    for (kind, body) in records {
        let m = body.len() / (4 * WIDTH);
        let is_right = kind == 6 && body.len() % (4 * WIDTH) == 2 && m >= least;
        let other = if is_right { change(body[0] as usize + 256 * body[1] as usize, m, body) } else { None };
        file.extend(other.unwrap_or_else(|| record(kind as u16, body)));
    }
    file.extend(&question.file[end..]);
    Some(reading::answer(call, &Question { file, ..question.clone() }))
}

/// The last record is cut, and its length says more than 300 corners.
fn last_too_large(call: Call, question: &Question) -> Option<Answer> {
    let (end, _) = whole(&question.file);
    let (length, _) = header(&question.file, end).filter(|(length, kind)| *kind == 6 && length % (4 * WIDTH) == 2)?;
    let file = [&question.file[..end], &too_large()].concat();
    (length / (4 * WIDTH) > MOST).then(|| reading::answer(call, &Question { file, ..question.clone() }))
}
