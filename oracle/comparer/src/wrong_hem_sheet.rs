//! Misreadings of the hem sheet: of the count, of what follows the panel file, of the order of its numbers, and of what it prints.

use crate::wrong::{accepted, Wrong};
use crate::wrong_hems::{hems, Misread as OfHems};
use judge::mesh::Hem;
use judge::reading::cleaning::{cleaned, remove_degenerate_faces};
use judge::reading::hems::{number, parts, COORDINATE, COUNT, FILE, ROOM};
use judge::reading::numbers::house_number;
use judge::reading::{hems as reading, panel_file, sheet};
use judge::{Answer, Call, Mesh, Numbers, Question};

/// The misreadings, each by its name.
pub const SHEET: &[(&str, Wrong)] = &[
    ("the count with its high byte first", |q, right| with_count(q, right, |count, _| count.swap_bytes())),
    ("the count taken to hold its own bytes", |q, right| with_count(q, right, |count, _| count.wrapping_sub(COUNT as u32))),
    ("the count of two bytes", |q, right| with_count(q, right, |count, _| count as u16 as u32)),
    ("a count beyond the file cut to the file", |q, right| with_count(q, right, |count, rest| count.min(rest))),
    ("1 for a count over 65,536", |q, right| {
        let is_over = q.file.len() >= COUNT && count_of(q) as usize > FILE;
        said(right, "refused 11\n").filter(|_| is_over && q.file.len() <= FILE).map(|_| refused(1))
    }),
    ("18 for fewer bytes than the count", |q, right| {
        said(right, "refused 11\n").filter(|_| q.file.len() >= COUNT && parts(&q.file).is_none()).map(|_| refused(18))
    }),
    ("fewer than four bytes taken for none", |q, right| {
        said(right, "refused 11\n").filter(|_| q.file.len() < COUNT).map(|_| refused(18))
    }),
    ("a cut triple refused before the reader's numbers", |q, right| {
        let (panel, behind) = parts(&q.file).filter(|_| q.file.len() <= FILE)?;
        let number = panel_file::read(panel).err()?;
        said(right, &line(number)).filter(|_| behind.len() % TRIPLE != 0).map(|_| refused(18))
    }),
    ("11 for a cut triple", |q, right| {
        let (_, behind) = parts(&q.file)?;
        said(right, "refused 18\n").filter(|_| behind.len() % TRIPLE != 0).map(|_| refused(11))
    }),
    ("13 for bytes behind the last triple", |q, right| {
        let (panel, behind) = parts(&q.file)?;
        let wanted = panel_file::read(panel).ok()?.positions.len() * COORDINATE;
        said(right, "refused 18\n").filter(|_| behind.len() > wanted).map(|_| refused(13))
    }),
    ("a cut triple passed over", |q, right| retold(q, right, Slip::CutPassed)),
    ("more triples than positions taken", |q, right| retold(q, right, Slip::MoreTaken)),
    ("coordinates with their high byte first", |q, right| retold(q, right, Slip::HighByteFirst)),
    ("coordinates without a sign", |q, right| retold(q, right, Slip::Unsigned)),
    ("10 asked before 19", |q, right| retold(q, right, Slip::VerdictFirst)),
    ("19 asked before 18", |q, right| retold(q, right, Slip::CoordinatesFirst)),
    ("folded faces removed first", |q, right| retold(q, right, Slip::Unfolded)),
    ("the cover cleaned first", |q, right| retold(q, right, Slip::Cleaned)),
    ("the line of a sheet for its hems that are refused", |_, right| {
        said(right, "refused 10\n").map(|_| Answer::sheet("hems refused 10\n".to_string()))
    }),
    ("the first refusal's word alone", |_, right| said(right, "refused 18\n").map(|_| Answer::sheet("refused\n".to_string()))),
    ("a byte more than 65,536 taken", |q, right| (q.file.len() == FILE + 1).then(|| whole(q, right))?),
    ("only the panel file's bytes counted", |q, right| {
        let is_over = q.file.len() > FILE && q.file.len() <= FILE + COUNT;
        is_over.then(|| whole(q, right))?
    }),
    ("65,536 bytes refused", |q, right| accepted(right, || refused(1)).filter(|_| q.file.len() == FILE)),
    ("edges before the panel", |q, right| {
        printed(q, right, OfHems::None, |hem| format!("hem {} {} {}\n", hem.edges, hem.panel, hem.length))
    }),
    ("no line end behind the last hem", |_, right| {
        let text = text(right);
        accepted(right, || Answer::sheet(text.strip_suffix('\n').unwrap_or("").to_string())).filter(|_| text.starts_with("hem"))
    }),
    ("a line of its own where there is no hem", |_, right| said(right, "").map(|_| Answer::sheet("\n".to_string()))),
    ("a length that wraps at 32 bits", |q, right| printed(q, right, OfHems::NarrowLength, reading::line)),
    ("the nearest root", |q, right| printed(q, right, OfHems::NearestRoot, reading::line)),
    ("the closing edge missing", |q, right| printed(q, right, OfHems::NotClosed, reading::line)),
    ("panels with the normals setting", |q, right| printed(q, right, OfHems::ByNormals, reading::line)),
    ("hems counted by edges", |q, right| printed(q, right, OfHems::EachEdge, reading::line)),
    ("room for another sheet taken", |q, right| {
        let is_enough = (sheet::ROOM..ROOM).contains(&q.rooms[0]);
        (right.number == 9 && is_enough).then(|| Answer::sheet(reading::sheet(&q.file)))
    }),
    ("a buffer taken that has room for this sheet alone", |q, right| {
        let text = reading::sheet(&q.file);
        (right.number == 9 && text.len() <= q.rooms[0]).then(|| Answer::sheet(text))
    }),
    ("a refused input answered by its number", |_, right| {
        let number = text(right).strip_prefix("refused ")?.trim().parse().ok()?;
        Some(Answer::refused(Call::HemSheet, number))
    }),
];

/// How many bytes a triple has.
const TRIPLE: usize = 3 * COORDINATE;

/// What is read wrong behind the panel file, or done with the mesh.
#[derive(Clone, Copy, PartialEq)]
pub enum Slip {
    /// Nothing: a test holds it to the reading.
    #[cfg(test)]
    None,
    CutPassed,
    MoreTaken,
    HighByteFirst,
    Unsigned,
    VerdictFirst,
    CoordinatesFirst,
    Unfolded,
    Cleaned,
}

fn line(number: u32) -> String {
    format!("refused {number}\n")
}

fn refused(number: u32) -> Answer {
    Answer::sheet(line(number))
}

fn text(right: &Answer) -> &str {
    match &right.lists[0] {
        Numbers::Bytes(bytes) => std::str::from_utf8(bytes).unwrap(),
        _ => "",
    }
}

/// Something where the right answer is this sheet.
fn said(right: &Answer, sheet: &str) -> Option<()> {
    (right.number == 0 && text(right) == sheet).then(|| ())
}

fn count_of(question: &Question) -> u32 {
    u32::from_le_bytes(question.file[..COUNT].try_into().unwrap())
}

/// What is answered to the input with another count, by the count and by the bytes behind it.
fn with_count(question: &Question, right: &Answer, other: fn(u32, u32) -> u32) -> Option<Answer> {
    if right.number != 0 || question.file.len() < COUNT || question.file.len() > FILE {
        return None;
    }
    let (mut file, rest) = (question.file.clone(), (question.file.len() - COUNT) as u32);
    file[..COUNT].copy_from_slice(&other(count_of(question), rest).to_le_bytes());
    Some(Answer::sheet(reading::sheet(&file)))
}

/// What is answered to an input whose panel file is read, with a slip behind it.
fn retold(question: &Question, right: &Answer, slip: Slip) -> Option<Answer> {
    let (panel, behind) = parts(&question.file).filter(|_| question.file.len() <= FILE && right.number == 0)?;
    Some(Answer::sheet(told(panel_file::read(panel).ok()?, behind, slip)))
}

/// The sheet of a mesh that was read and of the bytes behind it, with a slip.
pub fn told(mesh: Mesh, behind: &[u8], slip: Slip) -> String {
    let (wanted, whole) = (mesh.positions.len() * COORDINATE, behind.len() / TRIPLE * TRIPLE);
    let behind = match slip {
        Slip::CutPassed => &behind[..whole],
        Slip::MoreTaken if behind.len() > wanted => &behind[..wanted],
        _ => behind,
    };
    let coordinate = |four: &[u8]| match slip {
        Slip::HighByteFirst => i32::from_be_bytes(four.try_into().unwrap()),
        Slip::Unsigned => u32::from_le_bytes(four.try_into().unwrap()).min(i32::MAX as u32) as i32,
        _ => i32::from_le_bytes(four.try_into().unwrap()),
    };
    let mut triples: Vec<i32> = behind.chunks_exact(COORDINATE).map(coordinate).collect();
    let mesh = match slip {
        Slip::Unfolded => {
            let made = remove_degenerate_faces(&mesh);
            Mesh { corners: made.corners, sizes: made.sizes, ..mesh }
        }
        Slip::Cleaned => cleaned(mesh),
        _ => mesh,
    };
    if behind.len() % TRIPLE != 0 {
        // No mesh has so few positions.
        triples.push(0);
        triples.resize(triples.len() + (triples.len() == mesh.positions.len()) as usize, 0);
    }
    let (of_triples, of_verdict) = (number(&mesh, &triples), house_number(&mesh));
    let is_beyond = number(&Mesh { positions: vec![0.0; triples.len()], ..Mesh::default() }, &triples) == 19;
    let refusal = match slip {
        Slip::VerdictFirst if of_triples == 19 && of_verdict != 0 => of_verdict,
        Slip::CoordinatesFirst if is_beyond => 19,
        _ if of_triples != 0 => of_triples,
        _ => of_verdict,
    };
    match refusal {
        0 => hems(&mesh, &triples, OfHems::None).iter().map(reading::line).collect(),
        number => line(number),
    }
}

/// The lines of an input that has some, by other hems or in another form.
fn printed(question: &Question, right: &Answer, misread: OfHems, line: fn(&Hem) -> String) -> Option<Answer> {
    let (panel, behind) = parts(&question.file).filter(|_| right.number == 0 && text(right).starts_with("hem"))?;
    let mesh = panel_file::read(panel).ok()?;
    let triples: Vec<i32> = behind.chunks(COORDINATE).map(|four| i32::from_le_bytes(four.try_into().unwrap())).collect();
    Some(Answer::sheet(hems(&mesh, &triples, misread).iter().map(line).collect()))
}

/// What is said of an input that is too long, where its length is not asked.
fn whole(question: &Question, right: &Answer) -> Option<Answer> {
    said(right, &line(1))?;
    let told = match parts(&question.file) {
        None => line(11),
        Some((panel, behind)) => match panel_file::read(panel) {
            Err(number) => line(number),
            Ok(mesh) => told(mesh, behind, Slip::CutPassed),
        },
    };
    Some(Answer::sheet(told))
}
