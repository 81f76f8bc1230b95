//! Misreadings of 'round tables have more than 32 sides': of the limit of a face, in every call that has one, and of kind 5, in the reader, in what reads
//! and in the writer.

use crate::files::{count_bytes, face_of_kind, record};
use crate::one_by_one::header;
use crate::wrong::Wrong;
use crate::wrong_files::{kind, written};
use judge::mesh::WIDTH;
use judge::reading::{self, numbers, writing};
use judge::{Answer, Call, Count, Numbers, Question};

/// The most corners of a face, and the most of one of kind 4.
const MOST: usize = 300;
const SMALL: usize = 32;
/// A kind that there is not.
const UNKNOWN: u16 = 9;

/// The misreadings of a call, each by its name.
pub fn answers(call: Call) -> &'static [(&'static str, Wrong)] {
    match call {
        Call::Face => FACE,
        Call::ReadPanel => READER,
        Call::CleanPanel => CLEANER,
        Call::Sheet => SHEET,
        Call::WritePanel => WRITER,
        // The hem sheet's reader is the panel file's, whose own slips are planted in the three calls above.
        Call::LoopSubdivision | Call::ReadScan | Call::ScanSheet | Call::HemSheet => &[],
        _ => LIMIT,
    }
}

const STILL_32: (&str, Wrong) = ("32 corners still the most of a face", |q, right| {
    (![1, 2, 3].contains(&right.number) && largest(q) > SMALL).then(|| of_number(right, 3))
});
const REFUSED_300: (&str, Wrong) = ("a face of 300 corners refused", |q, right| {
    (![1, 2, 3].contains(&right.number) && largest(q) == MOST).then(|| of_number(right, 3))
});
const TAKEN_301: (&str, Wrong) =
    ("a face of 301 corners taken", |q, right| (right.number == 3 && is_over_by_one(q)).then(|| of_number(right, 0)));

/// Of the calls on a mesh, and of `push`.
const LIMIT: &[(&str, Wrong)] = &[STILL_32, REFUSED_300, TAKEN_301];

const FACE: &[(&str, Wrong)] = &[
    ("no part where a face has more than 32 corners", |q, _| (largest(q) > SMALL).then(|| Answer::face(0, 0))),
    ("a part where a face has 301 corners", |q, _| {
        (numbers::mesh_number(&q.mesh) == 3 && is_over_by_one(q)).then(|| Answer::face(0, 12))
    }),
];

const WRITER: &[(&str, Wrong)] = &[
    STILL_32,
    REFUSED_300,
    TAKEN_301,
    ("kind 4 written for 33 corners", |_, right| {
        rewritten(right, |n, corners| (n == SMALL + 1).then(|| record(4, &[&[n as u8], corners].concat())))
    }),
    ("kind 5 written for 32 corners", |_, right| {
        rewritten(right, |n, corners| (n == SMALL).then(|| record(5, &[&[n as u8, 0], corners].concat())))
    }),
    ("kind 5 with a count of one byte", |_, right| {
        rewritten(right, |n, corners| (n > SMALL).then(|| record(5, &[&[n as u8], corners].concat())))
    }),
    ("the low byte of the count alone", |_, right| {
        rewritten(right, |n, corners| (n > SMALL).then(|| record(5, &[&[n as u8, 0], corners].concat())))
    }),
    ("the high byte of the count first", |_, right| {
        rewritten(right, |n, corners| (n > SMALL).then(|| record(5, &[&(n as u16).to_be_bytes(), corners].concat())))
    }),
    ("a byte too few asked for each face of kind 5", |q, right| {
        let large = q.mesh.sizes.iter().filter(|size| **size as usize > SMALL).count();
        let (room, length) = (q.rooms[0], writing::length(&q.mesh));
        (right.number == 9 && length - large <= room).then(|| Answer::bytes(writing::write(&q.mesh)))
    }),
];

/// The misreadings of a call that reads a file.
macro_rules! reader {
    ($call: expr) => {
        &[
            ("kind 5 unknown, as it was", |q, _| reread($call, q, |kind, _, _, body| unknown(kind == 5, body))),
            ("kind 5 taken from 32 corners on", |q, _| {
                reread($call, q, |kind, n, m, body| {
                    (kind == 5 && n == SMALL && m == SMALL).then(|| record(4, &[&[n as u8], &body[2..]].concat()))
                })
            }),
            ("kind 4 taken with more than 32 corners", |q, _| {
                reread($call, q, |kind, n, m, body| {
                    (kind == 4 && n == m && m > SMALL).then(|| record(5, &[&[n as u8, 0], &body[1..]].concat()))
                })
            }),
            ("12 for more than 32 corners in kind 4", |q, _| {
                reread($call, q, |kind, _, m, body| unknown(kind == 4 && m > SMALL, body))
            }),
            ("301 corners taken, and the last left out", |q, _| {
                reread($call, q, |kind, n, m, body| {
                    let is_over_by_one = kind == 5 && n == m && m == MOST + 1;
                    is_over_by_one.then(|| record(5, &[&(MOST as u16).to_le_bytes(), &body[2..2 + 12 * MOST]].concat()))
                })
            }),
            ("a length of more than 300 corners wrong, so 12 for 301", |q, _| {
                reread($call, q, |kind, _, m, body| unknown(kind == 5 && m > MOST, body))
            }),
            ("3 asked before n is held to the length", |q, _| {
                reread($call, q, |kind, n, m, _| (kind == 5 && m > SMALL && n > MOST).then(too_large))
            }),
            ("the count of kind 5 read from one byte", |q, _| {
                reread($call, q, |kind, n, _, body| (kind == 5).then(|| record(5, &[&[n as u8, 0], &body[2..]].concat())))
            }),
            ("the high byte of the count first", |q, _| {
                reread($call, q, |kind, n, _, body| {
                    (kind == 5).then(|| record(5, &[&(n as u16).to_be_bytes(), &body[2..]].concat()))
                })
            }),
            ("3 asked before the whole body is there", |q, _| last_too_large($call, q)),
        ]
    };
}

const READER: &[(&str, Wrong)] = reader!(Call::ReadPanel);
const CLEANER: &[(&str, Wrong)] = reader!(Call::CleanPanel);
const SHEET: &[(&str, Wrong)] = reader!(Call::Sheet);

/// The corners of the largest face.
fn largest(question: &Question) -> usize {
    question.mesh.sizes.iter().max().map_or(0, |size| *size as usize)
}

/// Whether the largest face has a corner too many, and every other has enough.
fn is_over_by_one(question: &Question) -> bool {
    largest(question) == MOST + 1 && question.mesh.sizes.iter().all(|size| *size >= 3)
}

/// An answer with this number, nothing in its lists and counts of 0.
fn of_number(right: &Answer, number: u32) -> Answer {
    let empty = |list: &Numbers| match list {
        Numbers::Floats(_) => Numbers::Floats(vec![]),
        Numbers::Words(_) => Numbers::Words(vec![]),
        Numbers::Longs(_) => Numbers::Longs(vec![]),
        Numbers::Bytes(_) => Numbers::Bytes(vec![]),
    };
    Answer { number, lists: right.lists.iter().map(empty).collect(), counts: vec![Count::Is(0); right.counts.len()] }
}

/// The right file, in which some faces, by their number of corners and the bytes of these, are other records.
fn rewritten(right: &Answer, change: fn(usize, &[u8]) -> Option<Vec<u8>>) -> Option<Answer> {
    written(right, |records| {
        for face in records.iter_mut().filter(|record| [4, 5].contains(&kind(record))) {
            let corners = face[4 + count_bytes(kind(face))..].to_vec();
            if let Some(other) = change(corners.len() / 12, &corners) {
                *face = other;
            }
        }
    })
}

pub fn unknown(is_so: bool, body: &[u8]) -> Option<Vec<u8>> {
    is_so.then(|| record(UNKNOWN, body))
}

/// A face that is refused by 3.
pub fn too_large() -> Vec<u8> {
    face_of_kind(5, &[[0; WIDTH]; MOST + 1])
}

/// Where the records of a file end of which nothing is cut, and each of them.
pub fn whole(file: &[u8]) -> (usize, Vec<(usize, &[u8])>) {
    let (mut at, mut records) = (0, vec![]);
    while let Some((length, kind)) = header(file, at).filter(|(length, _)| at + 4 + length <= file.len()) {
        records.push((kind, &file[at + 4..at + 4 + length]));
        at += 4 + length;
        if kind == 0 {
            break;
        }
    }
    (at, records)
}

/// What is answered to a file in which some faces are other records: by the kind, n, the number of corners that the length says, and the body. Faces of a
/// length that their kind cannot have are left.
fn reread(call: Call, question: &Question, change: fn(usize, usize, usize, &[u8]) -> Option<Vec<u8>>) -> Option<Answer> {
    let (end, records) = whole(&question.file);
    let mut file = vec![];
    for (kind, body) in records {
        let other = match kind {
            4 if body.len() % 12 == 1 => change(kind, body[0] as usize, body.len() / 12, body),
            5 if body.len() % 12 == 2 => change(kind, body[0] as usize + 256 * body[1] as usize, body.len() / 12, body),
            _ => None,
        };
        file.extend(other.unwrap_or_else(|| record(kind as u16, body)));
    }
    file.extend(&question.file[end..]);
    Some(reading::answer(call, &Question { file, ..question.clone() }))
}

/// The last record is cut, and its length says more than 300 corners.
fn last_too_large(call: Call, question: &Question) -> Option<Answer> {
    let (end, _) = whole(&question.file);
    let (length, _) = header(&question.file, end).filter(|(length, kind)| *kind == 5 && length % 12 == 2)?;
    let file = [&question.file[..end], &too_large()].concat();
    (length / 12 > MOST).then(|| reading::answer(call, &Question { file, ..question.clone() }))
}
