//! Misreadings of 'no broken coordinates past the door': of the reader, of the writer, and of the cleaner and the sheet, which read.

use crate::one_by_one::{coordinates, header, is_entry, mend_mesh, mended_file, records, used, used_in_file, Coordinate, WIDTHS};
use crate::wrong::{number, Wrong};
use judge::reading::door::is_broken;
use judge::reading::{self, panel_file, writing};
use judge::{Answer, Call, Question};

/// The misreadings of a call, each by its name.
pub fn answers(call: Call) -> &'static [(&'static str, Wrong)] {
    match call {
        Call::ReadPanel => READER,
        Call::WritePanel => WRITER,
        Call::CleanPanel => CLEANER,
        Call::Sheet => SHEET,
        _ => &[],
    }
}

const READER: &[(&str, Wrong)] = &[
    ("an infinity passes", |q, _| passing(Call::ReadPanel, q, &|c| c.is_infinite())),
    ("a NaN passes", |q, _| passing(Call::ReadPanel, q, &|c| !c.is_infinite())),
    ("a signalling NaN passes", |q, _| passing(Call::ReadPanel, q, &|c| c.is_signalling())),
    ("a NaN with a sign passes", |q, _| passing(Call::ReadPanel, q, &|c| !c.is_infinite() && c.bits >> 63 == 1)),
    ("a NaN of other digits passes", |q, _| passing(Call::ReadPanel, q, &|c| c.bits != f64::NAN.to_bits() && !c.is_infinite())),
    ("only the first coordinate looked at", |q, _| passing(Call::ReadPanel, q, &|c| c.place > 0)),
    ("the last coordinate not looked at", |q, _| passing(Call::ReadPanel, q, &|c| c.place + 1 == WIDTHS[c.list])),
    ("positions not looked at", |q, _| passing(Call::ReadPanel, q, &|c| c.list == 0)),
    ("texture points not looked at", |q, _| passing(Call::ReadPanel, q, &|c| c.list == 1)),
    ("normals not looked at", |q, _| passing(Call::ReadPanel, q, &|c| c.list == 2)),
    ("entries that no corner uses not looked at", |q, _| {
        passing(Call::ReadPanel, q, &|c| !used_in_file(&q.file).contains(&c.entry()))
    }),
    ("a large number refused, as merging does", |q, right| {
        let large = || coordinates(&q.file).iter().any(|(_, c)| is_large(f64::from_bits(c.bits)));
        ([0, 5, 13].contains(&right.number) && large()).then(|| Answer::refused(Call::ReadPanel, 14))
    }),
    ("the limit asked before 14", limit_first),
    ("bytes after the end asked before 14", |q, right| mended_gives(q, right, 13)),
    ("an index asked before 14", |q, right| mended_gives(q, right, 5)),
    ("coordinates asked before faces, so 14 before 3", |q, right| {
        let broken = || coordinates(&q.file).iter().any(|(_, c)| c.is_broken());
        (right.number == 3 && broken()).then(|| Answer::refused(Call::ReadPanel, 14))
    }),
    ("a coordinate of a body that is cut looked at", |q, right| in_the_last(q, right, 11)),
    ("a coordinate of a body of a wrong length looked at", |q, right| in_the_last(q, right, 12)),
    ("room asked after 14", |q, right| {
        let broken = || panel_file::read(&q.file).err() == Some(14);
        (right.number == 9 && broken()).then(|| Answer::refused(Call::ReadPanel, 14))
    }),
];

const WRITER: &[(&str, Wrong)] = &[
    ("an infinity passes", |q, _| passing(Call::WritePanel, q, &|c| c.is_infinite())),
    ("a NaN passes", |q, _| passing(Call::WritePanel, q, &|c| !c.is_infinite())),
    ("a signalling NaN passes", |q, _| passing(Call::WritePanel, q, &|c| c.is_signalling())),
    ("only the first coordinate looked at", |q, _| passing(Call::WritePanel, q, &|c| c.place > 0)),
    ("only the first entry looked at", |q, _| passing(Call::WritePanel, q, &|c| c.number > 0)),
    ("positions not looked at", |q, _| passing(Call::WritePanel, q, &|c| c.list == 0)),
    ("texture points not looked at", |q, _| passing(Call::WritePanel, q, &|c| c.list == 1)),
    ("normals not looked at", |q, _| passing(Call::WritePanel, q, &|c| c.list == 2)),
    ("entries that no corner uses not looked at", |q, _| {
        passing(Call::WritePanel, q, &|c| !used(&q.mesh.corners).contains(&c.entry()))
    }),
    ("a large number refused, as merging does", |q, right| {
        let large = |list: &[f64]| list.iter().any(|x| is_large(*x));
        let any = large(&q.mesh.positions) || large(&q.mesh.textures) || large(&q.mesh.normals);
        ([0, 9].contains(&right.number) && any).then(|| Answer::refused(Call::WritePanel, 14))
    }),
    ("room asked before 14", |q, right| {
        (right.number == 14 && q.rooms[0] < writing::length(&q.mesh)).then(|| Answer::refused(Call::WritePanel, 9))
    }),
    ("an index asked after 14", |q, right| broken_before(q, right, 5)),
    ("the order of sizes asked after 14", |q, right| broken_before(q, right, 4)),
    ("the limits asked after 14", |q, right| broken_before(q, right, 1)),
];

const CLEANER: &[(&str, Wrong)] = &[
    ("an infinity passes", |q, _| passing(Call::CleanPanel, q, &|c| c.is_infinite())),
    ("texture points and normals not looked at", |q, _| passing(Call::CleanPanel, q, &|c| c.list > 0)),
    ("only what is left looked at", |q, _| passing(Call::CleanPanel, q, &|c| !used_in_file(&q.file).contains(&c.entry()))),
];

const SHEET: &[(&str, Wrong)] = &[
    ("a broken coordinate passes, since none is printed", |q, _| passing(Call::Sheet, q, &|_| true)),
    ("texture points and normals not looked at", |q, _| passing(Call::Sheet, q, &|c| c.list > 0)),
];

/// What merging refuses, and a file may hold.
fn is_large(x: f64) -> bool {
    x.is_finite() && x.abs() > 2f64.powi(60)
}

/// The answer of a product that takes some broken coordinates for whole ones.
fn passing(call: Call, question: &Question, passes: &dyn Fn(&Coordinate) -> bool) -> Option<Answer> {
    let mut mended = question.clone();
    if call.reads_a_file() {
        mended.file = mended_file(&question.file, passes);
    } else {
        mend_mesh(&mut mended.mesh, passes);
    }
    Some(reading::answer(call, &mended))
}

/// The limit of a list is asked before the coordinates of an entry.
fn limit_first(question: &Question, right: &Answer) -> Option<Answer> {
    if right.number != 14 {
        return None;
    }
    let (at, first) = coordinates(&question.file).into_iter().find(|(_, c)| c.is_broken())?;
    let behind = at + 8 * (WIDTHS[first.list] - first.place);
    let front = [&mended_file(&question.file[..behind], &|_| true)[..], &[0; 4]].concat();
    (panel_file::read(&front).err() == Some(1)).then(|| Answer::refused(Call::ReadPanel, 1))
}

/// Another number is asked of the whole file before any coordinate is.
fn mended_gives(question: &Question, right: &Answer, number: u32) -> Option<Answer> {
    let given = || panel_file::read(&mended_file(&question.file, &|_| true)).err();
    (right.number == 14 && given() == Some(number)).then(|| Answer::refused(Call::ReadPanel, number))
}

/// Coordinates are asked before the length of an entry (12), or whether all of it is there (11), where the reading stops for that.
fn in_the_last(question: &Question, right: &Answer, number: u32) -> Option<Answer> {
    let file = &question.file;
    let fits =
        |kind: usize, length: usize| is_entry(kind, length) || kind == 4 && length % 12 == 1 || kind == 5 && length % 12 == 2;
    let stop = records(file).into_iter().find(|(_, kind, body)| !fits(*kind, body.len())).map(|(at, _, _)| at - 4);
    let at = stop.unwrap_or_else(|| records(file).last().map_or(0, |(at, _, body)| at + body.len()));
    let (_, kind) = header(file, at).filter(|(_, kind)| (1..=3).contains(kind))?;
    let body = &file[at + 4..file.len().min(at + 4 + 8 * WIDTHS[kind - 1])];
    let broken = body.chunks_exact(8).any(|bytes| is_broken(&[f64::from_le_bytes(bytes.try_into().unwrap())]));
    (right.number == number && broken).then(|| Answer::refused(Call::ReadPanel, 14))
}

/// Coordinates are asked before another number of the mesh.
fn broken_before(question: &Question, right: &Answer, other: u32) -> Option<Answer> {
    let broken = reading::door::number(&question.mesh) == 14;
    (right.number == other && number(question) == other && broken).then(|| Answer::refused(Call::WritePanel, 14))
}
