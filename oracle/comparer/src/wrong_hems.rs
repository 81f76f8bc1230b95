//! Misreadings of the list of hems: of an edge's length and of a hem's, of its panel, of what is counted, and of the order of its numbers.

use crate::wrong::{accepted, number, Wrong};
use crate::wrong_house::smallest_end;
use judge::mesh::{Hem, Verdict};
use judge::reading::cleaning::remove_degenerate_faces;
use judge::reading::edges::verdict;
use judge::reading::hems::{self, FARTHEST};
use judge::reading::numbers::{house_number, stated_rooms};
use judge::reading::{house::house_wires, panels};
use judge::{Answer, Call, Count, Mesh, Numbers, Question};
use std::collections::{BTreeMap, BTreeSet};

/// The misreadings, each by its name.
pub const HEMS: &[(&str, Wrong)] = &[
    ("the nearest root", |q, right| misread(q, right, Misread::NearestRoot)),
    ("a root rounded up", |q, right| misread(q, right, Misread::RootAbove)),
    ("the root of the sum, and not the sum of the roots", |q, right| misread(q, right, Misread::RootOfSum)),
    ("fractions kept up to the sum", |q, right| misread(q, right, Misread::FractionsKept)),
    ("squares in 32 bits", |q, right| misread(q, right, Misread::NarrowSquares)),
    ("a length that wraps at 32 bits", |q, right| misread(q, right, Misread::NarrowLength)),
    ("the closing edge missing", |q, right| misread(q, right, Misread::NotClosed)),
    ("the third coordinate passed over", |q, right| misread(q, right, Misread::Flat)),
    ("lengths by the mesh's own positions", |q, right| {
        let own: Vec<i32> = q.mesh.positions.iter().map(|x| *x as i32).collect();
        accepted(right, || Answer::hems(&hems(&q.mesh, &own, Misread::None)))
    }),
    ("panels with the normals setting", |q, right| misread(q, right, Misread::ByNormals)),
    ("panels numbered by their lowest face", |q, right| misread(q, right, Misread::LowestFace)),
    ("panels numbered from 1", |q, right| misread(q, right, Misread::FromOne)),
    ("panels in the order of their hems", |q, right| misread(q, right, Misread::ByHems)),
    ("folded faces removed first", folded_removed),
    ("hems counted by edges", |q, right| misread(q, right, Misread::EachEdge)),
    ("edges counted by positions", |q, right| misread(q, right, Misread::Positions)),
    ("hems by the smallest end", |q, right| misread(q, right, Misread::SmallestEnd)),
    ("18 asked before 5", |q, right| {
        ((1..=5).contains(&right.number) && q.triples.len() != q.mesh.positions.len()).then(|| refused(18))
    }),
    ("19 asked before 18", |q, right| (right.number == 18 && q.triples.iter().any(|c| is_beyond(*c))).then(|| refused(19))),
    ("9 asked before 18", |q, right| (right.number == 18 && is_short(q)).then(|| refused(9))),
    ("9 asked before 19", |q, right| (right.number == 19 && is_short(q)).then(|| refused(9))),
    ("10 asked before 9", |q, right| (right.number == 9 && is_weak(&q.mesh)).then(|| refused(10))),
    ("10 asked before 19", |q, right| (right.number == 19 && is_weak(&q.mesh)).then(|| refused(10))),
    ("-1,000,001 taken", |q, right| taken(q, right, |coordinate| coordinate == -FARTHEST - 1)),
    ("1,000,001 taken", |q, right| taken(q, right, |coordinate| coordinate == FARTHEST + 1)),
    ("any coordinate below taken", |q, right| taken(q, right, |coordinate| coordinate < 0)),
    ("the lowest number taken, whose magnitude wraps", |q, right| taken(q, right, |coordinate| coordinate == i32::MIN)),
    ("1,000,000 refused", |q, right| farthest_refused(q, right, FARTHEST)),
    ("-1,000,000 refused", |q, right| farthest_refused(q, right, -FARTHEST)),
    ("only the triples that corners use looked at", |q, right| {
        let used = || q.mesh.faces().iter().flatten().map(|corner| corner[0] as usize).collect::<BTreeSet<usize>>();
        let is_unused = |used: BTreeSet<usize>| {
            (0..q.triples.len()).all(|place| !used.contains(&(place / 3)) || !is_beyond(q.triples[place]))
        };
        (right.number == 19 && is_unused(used())).then(|| from_9_on(q, &q.triples))
    }),
    ("only the last triple looked at", |q, right| {
        let last = q.triples.len().saturating_sub(3);
        (right.number == 19 && !q.triples[last..].iter().any(|c| is_beyond(*c))).then(|| from_9_on(q, &q.triples))
    }),
    ("a cut triple passed over", |q, right| {
        let whole = q.triples.len() / 3 * 3;
        let (is_cut, fits) = (whole < q.triples.len(), whole == q.mesh.positions.len());
        (right.number == 18 && is_cut && fits).then(|| from_19_on(q, &q.triples[..whole]))
    }),
    ("more triples than positions taken", |q, right| {
        let wanted = q.mesh.positions.len();
        (right.number == 18 && q.triples.len() > wanted).then(|| from_19_on(q, &q.triples[..wanted]))
    }),
    ("numbers counted by positions, and not three to each", |q, right| {
        (right.number == 0 && !q.triples.is_empty()).then(|| refused(18))
    }),
    ("the list written though its verdict is refused", |q, right| {
        let zeros = Numbers::Words(vec![0; q.mesh.sizes.len().min(1)]);
        let lists = vec![zeros.clone(), zeros, Numbers::Longs(vec![])];
        (right.number == 10).then(|| Answer { number: 10, lists, counts: vec![Count::Is(0)] })
    }),
    ("the lists written up to the room that is there, though it is short", |q, right| {
        let is_listed = right.number == 9 && !is_weak(&q.mesh);
        is_listed.then(|| Answer { number: 9, counts: vec![Count::Is(0)], ..Answer::hems(&hems::list(&q.mesh, &q.triples)) })
    }),
];

/// What is read wrong.
#[derive(Clone, Copy, PartialEq)]
pub enum Misread {
    /// Nothing: a test holds it to the reading, so that what the misreadings show is theirs alone.
    None,
    NearestRoot,
    RootAbove,
    RootOfSum,
    FractionsKept,
    NarrowSquares,
    NarrowLength,
    NotClosed,
    Flat,
    ByNormals,
    LowestFace,
    FromOne,
    ByHems,
    EachEdge,
    Positions,
    SmallestEnd,
}

type Edge = [u32; 2];

/// The hems of an accepted question with one misreading.
pub fn hems(mesh: &Mesh, triples: &[i32], misread: Misread) -> Vec<Hem> {
    let panels = panels(mesh, misread);
    let mut wires = if misread == Misread::SmallestEnd { smallest_end(mesh) } else { house_wires(mesh) };
    if misread == Misread::EachEdge {
        wires =
            wires.iter().flat_map(|wire| (0..wire.len()).map(move |i| [wire[i], wire[(i + 1) % wire.len()]].to_vec())).collect();
    }
    let mut hems: Vec<Hem> = wires.iter().map(|wire| hem(wire, triples, &panels, misread)).collect();
    if misread == Misread::ByHems {
        let mut met = vec![];
        for hem in &mut hems {
            let place = met.iter().position(|panel| *panel == hem.panel).unwrap_or(met.len());
            met.extend(Some(hem.panel).filter(|_| place == met.len()));
            hem.panel = place as u32;
        }
    }
    hems
}

/// A hem by its wire.
fn hem(wire: &[u32], triples: &[i32], panels: &BTreeMap<Edge, u32>, misread: Misread) -> Hem {
    let mut edges: Vec<Edge> = (0..wire.len()).map(|i| [wire[i], wire[(i + 1) % wire.len()]]).collect();
    let (panel, mut count) = (panels[&edges[0]], edges.len());
    match misread {
        Misread::NotClosed => edges.truncate(count - 1),
        Misread::EachEdge => {
            edges.truncate(1);
            count = 1;
        }
        Misread::Positions => count = wire.iter().collect::<BTreeSet<_>>().len(),
        _ => {}
    }
    let squares: Vec<u64> = edges.iter().map(|edge| square(triples, *edge, misread)).collect();
    let length = match misread {
        Misread::RootOfSum => root(squares.iter().sum(), misread),
        Misread::FractionsKept => squares.iter().map(|square| (*square as f64).sqrt()).sum::<f64>() as u64,
        Misread::NarrowLength => squares.iter().map(|square| root(*square, misread)).sum::<u64>() as u32 as u64,
        _ => squares.iter().map(|square| root(*square, misread)).sum(),
    };
    Hem { panel, edges: count as u32, length }
}

/// The squared distance of an edge's ends.
fn square(triples: &[i32], [start, end]: Edge, misread: Misread) -> u64 {
    let axes = if misread == Misread::Flat { 2 } else { 3 };
    let squares = (0..axes).map(|axis| {
        let apart = triples[3 * start as usize + axis] as i64 - triples[3 * end as usize + axis] as i64;
        (apart * apart) as u64
    });
    match misread {
        Misread::NarrowSquares => squares.fold(0u32, |sum, square| sum.wrapping_add(square as u32)) as u64,
        _ => squares.sum(),
    }
}

/// The whole root, by its binary digits from the highest on.
fn root(square: u64, misread: Misread) -> u64 {
    let root = (0..32).rev().map(|digit| 1u64 << digit).fold(0u64, |root, digit| {
        let fits = (root + digit).checked_mul(root + digit).map_or(false, |next| next <= square);
        if fits {
            root + digit
        } else {
            root
        }
    });
    let rest = square - root * root;
    match misread {
        Misread::NearestRoot => root + (rest > root) as u64,
        Misread::RootAbove => root + (rest > 0) as u64,
        _ => root,
    }
}

/// For each edge as a face uses it the number of the panel: faces that share an edge get the least label of theirs until none changes, and
/// panels are numbered by these. With the normals setting they are those of the reading.
fn panels(mesh: &Mesh, misread: Misread) -> BTreeMap<Edge, u32> {
    let steps: Vec<Vec<Edge>> =
        mesh.faces().iter().map(|face| (0..face.len()).map(|i| [face[i][0], face[(i + 1) % face.len()][0]]).collect()).collect();
    let mut labels: Vec<usize> = (0..steps.len()).collect();
    if misread == Misread::ByNormals {
        for panel in panels::components(mesh, true) {
            panel.iter().for_each(|face| labels[*face as usize] = panel[0] as usize);
        }
    } else {
        join(&steps, &mut labels);
    }
    let lowest: Vec<usize> = labels.iter().copied().collect::<BTreeSet<_>>().into_iter().collect();
    let number = |label: usize| match misread {
        Misread::LowestFace => label as u32,
        Misread::FromOne => lowest.binary_search(&label).unwrap() as u32 + 1,
        _ => lowest.binary_search(&label).unwrap() as u32,
    };
    steps
        .iter()
        .zip(&labels)
        .flat_map(|(steps, label)| steps.iter().map(move |step| (*step, *label)))
        .map(|(step, label)| (step, number(label)))
        .collect()
}

/// Faces that share an edge get one label, the least.
fn join(steps: &[Vec<Edge>], labels: &mut [usize]) {
    let mut changed = true;
    while changed {
        changed = false;
        let mut least: BTreeMap<Edge, usize> = BTreeMap::new();
        let key = |[start, end]: Edge| [start.min(end), start.max(end)];
        for (steps, label) in steps.iter().zip(labels.iter()) {
            for step in steps {
                let found = least.entry(key(*step)).or_insert(*label);
                *found = (*found).min(*label);
            }
        }
        for (steps, label) in steps.iter().zip(labels.iter_mut()) {
            let new = steps.iter().map(|step| least[&key(*step)]).min().unwrap();
            changed |= new != *label;
            *label = new;
        }
    }
}

fn misread(question: &Question, right: &Answer, misread: Misread) -> Option<Answer> {
    accepted(right, || Answer::hems(&hems(&question.mesh, &question.triples, misread)))
}

fn refused(number: u32) -> Answer {
    Answer::refused(Call::ListHems, number)
}

fn is_beyond(coordinate: i32) -> bool {
    !(-FARTHEST..=FARTHEST).contains(&coordinate)
}

fn is_short(question: &Question) -> bool {
    stated_rooms(Call::ListHems, &question.mesh).iter().zip(&question.rooms).any(|(stated, lent)| lent < stated)
}

/// Whether an accepted mesh has no house wires.
fn is_weak(mesh: &Mesh) -> bool {
    [Verdict::Irregular, Verdict::Regular].contains(&verdict(mesh))
}

/// What is answered with these triples once 19 is not given.
fn from_9_on(question: &Question, triples: &[i32]) -> Answer {
    match (is_short(question), house_number(&question.mesh)) {
        (true, _) => refused(9),
        (_, 0) => Answer::hems(&hems::list(&question.mesh, triples)),
        (_, number) => refused(number),
    }
}

/// What is answered with these triples once 18 is not given.
fn from_19_on(question: &Question, triples: &[i32]) -> Answer {
    if triples.iter().any(|coordinate| is_beyond(*coordinate)) {
        return refused(19);
    }
    from_9_on(question, triples)
}

/// Some coordinates that are beyond are taken.
fn taken(question: &Question, right: &Answer, is_taken: fn(i32) -> bool) -> Option<Answer> {
    let others = question.triples.iter().any(|coordinate| is_beyond(*coordinate) && !is_taken(*coordinate));
    (right.number == 19 && !others).then(|| from_9_on(question, &question.triples))
}

fn farthest_refused(question: &Question, right: &Answer, farthest: i32) -> Option<Answer> {
    ([0, 9, 10].contains(&right.number) && question.triples.contains(&farthest)).then(|| refused(19))
}

/// The mesh without its folded faces; the triples stay, since no position goes.
fn folded_removed(question: &Question, right: &Answer) -> Option<Answer> {
    if ![0, 10].contains(&right.number) || number(question) != 0 {
        return None;
    }
    let made = remove_degenerate_faces(&question.mesh);
    let mesh = Mesh { corners: made.corners, sizes: made.sizes, ..question.mesh.clone() };
    Some(match house_number(&mesh) {
        0 => Answer::hems(&hems::list(&mesh, &question.triples)),
        number => refused(number),
    })
}
