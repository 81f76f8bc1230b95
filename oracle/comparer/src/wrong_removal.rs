//! Misreadings of the removal of folded faces: of the rule for larger faces, and of the numbers of the faces that the pieces came from.

use crate::wrong::{accepted, number, Wrong};
use judge::mesh::Corner;
use judge::reading::cleaning::{remove_degenerate_faces, unfolded_by};
use judge::reading::numbers::stated_rooms;
use judge::{Answer, Call, Numbers, Question};

/// The place of the origins among the lists of an answer.
const ORIGINS: usize = 2;

/// The misreadings, each by its name.
pub const REMOVAL: &[(&str, Wrong)] = &[
    ("corner i for both rings", |q, right| accepted(right, || Answer::unfolded(unfolded_by(&q.mesh, ring_with_corner_i)))),
    ("the search begins at i = 1", |q, right| accepted(right, || Answer::unfolded(unfolded_by(&q.mesh, ring_from_1)))),
    ("origins in the order of the pieces", |_, right| with_origins(right, |origins| origins.sort_unstable())),
    ("origins one further", |_, right| with_origins(right, |origins| origins.iter_mut().for_each(|origin| *origin += 1))),
    ("every origin 0", |_, right| with_origins(right, |origins| origins.fill(0))),
    ("origins that number the faces of the result", |_, right| {
        with_origins(right, |origins| (0..).zip(origins).for_each(|(number, origin)| *origin = number))
    }),
    ("the last origin not written", |_, right| with_origins(right, |origins| origins.truncate(origins.len().saturating_sub(1)))),
    ("an origin written behind the last", |_, right| with_origins(right, |origins| origins.push(0))),
    ("faces behind the triangles numbered from 0 again", |q, right| with_origins(right, |origins| from_0_again(q, origins))),
    ("the room for origins not counted", room_not_counted),
    ("room for origins asked only as far as there are any", room_for_the_result),
    ("an origin written on a refusal", |_, right| (right.number != 0).then(|| origins_of(right, vec![0]))),
];

/// The same answer with other origins.
fn origins_of(right: &Answer, origins: Vec<u32>) -> Answer {
    let mut answer = right.clone();
    answer.lists[ORIGINS] = Numbers::Words(origins);
    answer
}

fn with_origins(right: &Answer, change: impl Fn(&mut Vec<u32>)) -> Option<Answer> {
    accepted(right, || {
        let mut origins = match &right.lists[ORIGINS] {
            Numbers::Words(origins) => origins.clone(),
            _ => vec![],
        };
        change(&mut origins);
        origins_of(right, origins)
    })
}

/// Quadrangles and larger faces counted from the first of them.
fn from_0_again(question: &Question, origins: &mut [u32]) {
    let triangles = question.mesh.sizes.iter().filter(|size| **size == 3).count() as u32;
    origins.iter_mut().filter(|origin| **origin >= triangles).for_each(|origin| *origin -= triangles);
}

/// Whether the origins' room is the only one that is too short.
fn is_short_of_origins(question: &Question) -> bool {
    let stated = stated_rooms(Call::RemoveDegenerateFaces, &question.mesh);
    number(question) == 0 && (0..ORIGINS).all(|list| question.rooms[list] >= stated[list])
}

fn room_not_counted(question: &Question, right: &Answer) -> Option<Answer> {
    (right.number == 9 && is_short_of_origins(question)).then(|| Answer::unfolded(remove_degenerate_faces(&question.mesh)))
}

fn room_for_the_result(question: &Question, right: &Answer) -> Option<Answer> {
    let answer = room_not_counted(question, right)?;
    let made = match &answer.lists[ORIGINS] {
        Numbers::Words(origins) => origins.len(),
        _ => 0,
    };
    (made <= question.rooms[ORIGINS]).then(|| answer)
}

fn split(
    r: Vec<Corner>,
    from: usize,
    again: fn(Vec<Corner>) -> Vec<Vec<Corner>>,
    other: fn(&[Corner], usize, usize) -> Vec<Corner>,
) -> Vec<Vec<Corner>> {
    let pairs = (from..r.len()).flat_map(|i| (i + 1..r.len()).map(move |j| (i, j)));
    let found = pairs.into_iter().find(|(i, j)| r[*i][0] == r[*j][0]);
    found.map_or(vec![r.clone()], |(i, j)| [again(r[i..j].to_vec()), again(other(&r, i, j))].concat())
}

fn ring_with_corner_i(r: Vec<Corner>) -> Vec<Vec<Corner>> {
    split(r, 0, ring_with_corner_i, |r, i, j| [&[r[i]], &r[j + 1..], &r[..i]].concat())
}

fn ring_from_1(r: Vec<Corner>) -> Vec<Vec<Corner>> {
    split(r, 1, ring_from_1, |r, i, j| [&r[j..], &r[..i]].concat())
}
