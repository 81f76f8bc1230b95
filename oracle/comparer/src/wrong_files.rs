//! Misreadings of the writer of panel files and of the cleaner.

use crate::files::{corner_bytes, count_bytes};
use crate::wrong::{accepted, number, Wrong};
use judge::reading::{cleaning, panel_file, sheet, writing};
use judge::{Answer, Call, Mesh, Numbers, Question};

/// The misreadings of the writer, each by its name.
pub const WRITER: &[(&str, Wrong)] = &[
    ("the high byte of a number first", |_, right| written(right, numbers_turned)),
    ("the high byte of a length and of a kind first", |_, right| written(right, headers_turned)),
    ("a face's length one off", |_, right| {
        written(right, |records| faces(records).for_each(|face| face[0] = face[0].wrapping_sub(1)))
    }),
    ("texture points before positions", |_, right| {
        written(right, |records| records.sort_by_key(|r| [4, 1, 0, 2, 3, 3, 3][kind(r)]))
    }),
    ("a face's corners in reverse", |_, right| written(right, |records| faces(records).for_each(corners_turned))),
    ("a negative zero written as zero", |_, right| written(right, zeros_without_sign)),
    ("the end record missing", |_, right| written(right, |records| records.truncate(records.len() - 1))),
    ("a buffer one byte short taken", one_byte_short),
    ("room for the longest file asked", longest_asked),
    ("room asked before the mesh is looked at", room_first),
];

/// The misreadings of the cleaner.
pub const CLEANER: &[(&str, Wrong)] = &[
    ("the file as it came", |q, right| accepted(right, || Answer::bytes(q.file.clone()))),
    ("folded faces kept", |q, right| cleaned(q, right, compacted)),
    ("unused entries kept", |q, right| cleaned(q, right, unfolded)),
    ("compacted before folded faces go", |q, right| cleaned(q, right, |mesh| unfolded(compacted(mesh)))),
    ("a buffer taken that has room for this file alone", room_for_this_file),
    ("a file refused that is too long for a sheet", |q, right| {
        (right.number == 0 && q.file.len() > sheet::FILE).then(|| Answer::refused(Call::CleanPanel, 1))
    }),
    ("a file taken that is longer than any of a mesh", longer_taken),
    ("the length of a file asked before the room", |q, right| {
        (right.number == 9 && q.file.len() > writing::LONGEST).then(|| Answer::refused(Call::CleanPanel, 1))
    }),
];

/// The right file with its records changed.
pub fn written(right: &Answer, change: impl Fn(&mut Vec<Vec<u8>>)) -> Option<Answer> {
    accepted(right, || {
        let mut records = records(right);
        change(&mut records);
        Answer::bytes(records.concat())
    })
}

/// The records of a file that was written, each with its header.
fn records(right: &Answer) -> Vec<Vec<u8>> {
    let mut rest = match &right.lists[0] {
        Numbers::Bytes(file) => &file[..],
        _ => &[],
    };
    let mut records = vec![];
    while !rest.is_empty() {
        let (record, behind) = rest.split_at(4 + u16::from_le_bytes([rest[0], rest[1]]) as usize);
        records.push(record.to_vec());
        rest = behind;
    }
    records
}

pub fn kind(record: &[u8]) -> usize {
    record[2] as usize
}

fn faces(records: &mut [Vec<u8>]) -> impl Iterator<Item = &mut Vec<u8>> {
    records.iter_mut().filter(|record| kind(record) >= 4)
}

fn numbers_turned(records: &mut Vec<Vec<u8>>) {
    for record in records {
        match kind(record) {
            kind @ 4..=6 => record[4 + count_bytes(kind)..].chunks_mut(4).for_each(|index| index.reverse()),
            _ => record[4..].chunks_mut(8).for_each(|coordinate| coordinate.reverse()),
        }
    }
}

fn headers_turned(records: &mut Vec<Vec<u8>>) {
    records.iter_mut().for_each(|record| record[..4].chunks_mut(2).for_each(|half| half.reverse()));
}

fn corners_turned(face: &mut Vec<u8>) {
    let corners = 4 + count_bytes(kind(face));
    let turned: Vec<u8> = face[corners..].chunks(corner_bytes(kind(face))).rev().flatten().copied().collect();
    face.truncate(corners);
    face.extend(turned);
}

fn zeros_without_sign(records: &mut Vec<Vec<u8>>) {
    let coordinates = records.iter_mut().filter(|record| kind(record) < 4).flat_map(|record| record[4..].chunks_mut(8));
    coordinates.filter(|bits| **bits == (-0f64).to_le_bytes()).for_each(|bits| bits[7] = 0);
}

fn one_byte_short(question: &Question, right: &Answer) -> Option<Answer> {
    let is_one_short = question.rooms[0] + 1 == writing::length(&question.mesh);
    (right.number == 9 && is_one_short).then(|| Answer::bytes(writing::write(&question.mesh)))
}

fn longest_asked(question: &Question, right: &Answer) -> Option<Answer> {
    (right.number == 0 && question.rooms[0] < writing::LONGEST).then(|| Answer::refused(Call::WritePanel, 9))
}

fn room_first(question: &Question, right: &Answer) -> Option<Answer> {
    let is_short = question.rooms[0] < writing::length(&question.mesh);
    (number(question) != 0 && right.number != 0 && is_short).then(|| Answer::refused(Call::WritePanel, 9))
}

/// A cleaner that does something else with the mesh.
pub fn cleaned(question: &Question, right: &Answer, clean: impl Fn(Mesh) -> Mesh) -> Option<Answer> {
    let mesh = panel_file::read(&question.file).ok()?;
    accepted(right, || Answer::bytes(writing::write(&clean(mesh.clone()))))
}

fn unfolded(mesh: Mesh) -> Mesh {
    let made = cleaning::remove_degenerate_faces(&mesh);
    Mesh { corners: made.corners, sizes: made.sizes, ..mesh }
}

fn compacted(mesh: Mesh) -> Mesh {
    let made = cleaning::remove_unused_attrs(&mesh);
    Mesh { positions: made.positions, textures: made.textures, normals: made.normals, corners: made.corners, sizes: mesh.sizes }
}

fn longer_taken(question: &Question, right: &Answer) -> Option<Answer> {
    let mesh = panel_file::read(&question.file).ok()?;
    let is_longer = question.file.len() > writing::LONGEST;
    (right.number == 1 && is_longer).then(|| Answer::bytes(writing::write(&cleaning::cleaned(mesh))))
}

fn room_for_this_file(question: &Question, right: &Answer) -> Option<Answer> {
    let file = writing::clean(&question.file).ok()?;
    (right.number == 9 && file.len() <= question.rooms[0]).then(|| Answer::bytes(file))
}
