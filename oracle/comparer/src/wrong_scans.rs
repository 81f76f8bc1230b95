//! Misreadings of the scanner's own file: of the reader of scans and of the sheet of a scan.

use crate::wrong::{accepted, hems_by_the_smallest_end, Wrong};
use crate::wrong_scan::{read, Misread};
use judge::reading::numbers::stated_rooms;
use judge::reading::scan::{self, LONGEST};
use judge::reading::{cleaning, sheet};
use judge::{Answer, Call, Mesh, Question};

/// The misreadings of the reader of scans, each by its name.
pub const READER: &[(&str, Wrong)] = &[
    ("a negative zero kept apart", |q, right| misread(q, right, Misread::ZeroKeptApart)),
    ("a negative zero made one with zero, and kept where it comes first", |q, right| misread(q, right, Misread::ZeroKept)),
    ("a normal taken for a point", |q, right| misread(q, right, Misread::NormalTaken)),
    ("normals handed on", |q, right| misread(q, right, Misread::NormalsHandedOn)),
    ("numbered by last appearance", |q, right| misread(q, right, Misread::LastAppearance)),
    ("numbered by their bits", |q, right| misread(q, right, Misread::Sorted)),
    ("the third coordinate not compared", |q, right| misread(q, right, Misread::TwoCoordinates)),
    ("folded triangles dropped", |q, right| misread(q, right, Misread::FoldedDropped)),
    ("subnormals flushed", |q, right| misread(q, right, Misread::Flushed)),
    ("subnormals widened as others are", |q, right| misread(q, right, Misread::Normalised)),
    ("the high byte of the count first", |q, right| misread(q, right, Misread::CountTurned)),
    ("the two bytes behind a triangle not passed over", |q, right| misread(q, right, Misread::NoFields)),
    ("13 given for a short file", |q, right| misread(q, right, Misread::ShortIs13)),
    ("11 given for a long file", |q, right| misread(q, right, Misread::LongIs11)),
    ("a long file taken", |q, right| misread(q, right, Misread::LongTaken)),
    ("a file of 83 bytes taken for an empty scan", |q, right| misread(q, right, Misread::FrontOfThree)),
    ("the length asked before the count", |q, right| misread(q, right, Misread::LengthFirst)),
    ("a length that wraps in 32 bits", |q, right| misread(q, right, Misread::Wraps)),
    ("1,365 triangles refused", |q, right| misread(q, right, Misread::FewerTriangles)),
    ("2,048 positions refused", |q, right| misread(q, right, Misread::FewerPositions)),
    ("2,049 positions taken", |q, right| misread(q, right, Misread::MorePositions)),
    ("an infinity passes", |q, right| misread(q, right, Misread::InfinityPasses)),
    ("a NaN passes", |q, right| misread(q, right, Misread::NaNPasses)),
    ("a signalling NaN passes", |q, right| misread(q, right, Misread::SignallingPasses)),
    ("normals looked at", |q, right| misread(q, right, Misread::NormalsAsked)),
    ("only the first coordinate looked at", |q, right| misread(q, right, Misread::FirstAsked)),
    ("14 after the second 1", |q, right| misread(q, right, Misread::BrokenLast)),
    ("14 before the length", |q, right| misread(q, right, Misread::BrokenFirst)),
    ("room for texture points and normals not asked", |q, right| {
        let stated = stated_rooms(Call::ReadScan, &q.mesh);
        ([0, 3, 4].iter().all(|i| q.rooms[*i] >= stated[*i]) && right.number == 9).then(|| answer(scan::read(&q.file)))
    }),
    ("room for this scan alone asked", |q, right| {
        let mesh = scan::read(&q.file).ok()?;
        let needed = [mesh.positions.len(), 0, 0, mesh.corners.len(), mesh.sizes.len()];
        (right.number == 9 && q.rooms.iter().zip(needed).all(|(room, needed)| *room >= needed)).then(|| Answer::read(mesh))
    }),
    ("room asked last", |q, right| {
        let number = scan::read(&q.file).err()?;
        (right.number == 9).then(|| Answer::refused(Call::ReadScan, number))
    }),
];

/// The misreadings of the sheet of a scan.
pub const SHEET: &[(&str, Wrong)] = &[
    ("a negative zero kept apart", |q, right| other_sheet(q, right, Misread::ZeroKeptApart)),
    ("an infinity passes", |q, right| other_sheet(q, right, Misread::InfinityPasses)),
    ("13 given for a short file", |q, right| other_sheet(q, right, Misread::ShortIs13)),
    ("folded triangles kept", |q, right| {
        let mesh = scan::read(&q.file).ok()?;
        accepted(right, || Answer::sheet(sheet::sheet_of(&mesh)))
    }),
    ("positions that are left numbered as in the file", |q, right| {
        let mesh = scan::read(&q.file).ok()?;
        let left = cleaning::remove_degenerate_faces(&mesh);
        let mesh = Mesh { corners: left.corners, sizes: left.sizes, ..mesh };
        accepted(right, || Answer::sheet(sheet::sheet_of(&mesh)))
    }),
    ("a file refused that is too long for a panel file", |q, right| {
        (right.number == 0 && q.file.len() > sheet::FILE).then(|| Answer::sheet("refused 1\n".to_string()))
    }),
    ("a file that is longer than any scan cut there", |q, right| {
        (right.number == 0 && q.file.len() > LONGEST).then(|| Answer::sheet(scan::sheet(&q.file[..LONGEST])))
    }),
    ("hems by the smallest end", |q, right| hems_by_the_smallest_end(scan::read(&q.file).ok()?, right)),
];

fn answer(read: Result<Mesh, u32>) -> Answer {
    match read {
        Ok(mesh) => Answer::read(mesh),
        Err(number) => Answer::refused(Call::ReadScan, number),
    }
}

/// The reader with a misreading; its room is asked as it should be.
fn misread(question: &Question, right: &Answer, misread: Misread) -> Option<Answer> {
    (right.number != 9).then(|| answer(read(&question.file, misread)))
}

fn other_sheet(question: &Question, right: &Answer, misread: Misread) -> Option<Answer> {
    accepted(right, || {
        Answer::sheet(match read(&question.file, misread) {
            Ok(mesh) => sheet::sheet_of(&cleaning::cleaned(mesh)),
            Err(number) => format!("refused {number}\n"),
        })
    })
}
