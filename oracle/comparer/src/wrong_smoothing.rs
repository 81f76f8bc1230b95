//! Misreadings of smoothing: of its numbers and their order, and, over `wrong_points`, of its arithmetic, its edges and its faces.

use crate::wrong::{accepted, number, Wrong};
use crate::wrong_points::{smoothed, Misread};
use judge::mesh::{Corner, INDICES, WIDTH};
use judge::reading::edges::verdict;
use judge::reading::numbers::{is_boundless, stated_rooms};
use judge::reading::smoothing::loop_subdivision;
use judge::{rust, Answer, Call, Count, Mesh, Numbers, Question, Verdict, MISSING};
use std::collections::BTreeSet;

/// The misreadings, each by its name.
pub const SMOOTHING: &[(&str, Wrong)] = &[
    // The arithmetic.
    ("wings exchanged", |q, right| points(q, right, Misread::WingsExchanged)),
    ("both wings over the lower end", |q, right| points(q, right, Misread::BothWingsOverLower)),
    ("a moved position used for an edge", |q, right| points(q, right, Misread::MovedForEdges)),
    ("a moved position used for the next one", |q, right| points(q, right, Misread::MovedInPlace)),
    ("the two lists of cosines exchanged", |q, right| points(q, right, Misread::ListsExchanged)),
    ("cosines counted from 0", |q, right| points(q, right, Misread::CosinesFromZero)),
    ("the cosine of the other end", |q, right| points(q, right, Misread::CosineOfTheOtherEnd)),
    ("the higher end looked at first", |q, right| points(q, right, Misread::HigherFirst)),
    ("an edge in the direction of its first use", |q, right| points(q, right, Misread::DirectionOfUse)),
    ("an edge between two positions of the boundary like an inner one", |q, right| points(q, right, Misread::BetweenHemsInner)),
    ("3/8 and 5/8 exchanged", |q, right| points(q, right, Misread::EighthsExchanged)),
    ("a middle of half the sum", |q, right| points(q, right, Misread::HalfTheSum)),
    ("the middle for every edge", |q, right| points(q, right, Misread::MiddleOfEvery)),
    ("a share divided before it is taken off", |q, right| points(q, right, Misread::ShareDividedFirst)),
    ("a product and a sum in one operation", |q, right| points(q, right, Misread::Fused)),
    ("neighbours weighed one by one", |q, right| points(q, right, Misread::WeighedOneByOne)),
    ("neighbours summed from the last", |q, right| points(q, right, Misread::FromTheLast)),
    ("neighbours in ascending order", |q, right| points(q, right, Misread::AscendingNeighbours)),
    ("an eighth of each neighbour of the boundary", |q, right| points(q, right, Misread::EighthOfEach)),
    ("the last two hem edges of a position", |q, right| points(q, right, Misread::LastTwoHems)),
    ("a corner moved like the boundary", |q, right| points(q, right, Misread::NoCorner)),
    ("a corner where there are two hem edges", |q, right| points(q, right, Misread::CornerByHems)),
    ("a position with four hem edges stays", |q, right| points(q, right, Misread::PinchStays)),
    ("nothing moved", |q, right| points(q, right, Misread::NothingMoved)),
    // Edges and faces.
    ("edges numbered in ring order", |q, right| points(q, right, Misread::RingOrder)),
    ("edges numbered in ascending order", |q, right| points(q, right, Misread::AscendingEdges)),
    ("edges first, then the old positions", |q, right| points(q, right, Misread::EdgesFirst)),
    ("the middle triangle first", |q, right| points(q, right, Misread::MiddleFirst)),
    ("the triangle of the second corner before that of the third", |q, right| points(q, right, Misread::RingOrderOfFaces)),
    ("each triangle begun at its old corner", |q, right| points(q, right, Misread::BegunAtOldCorner)),
    ("the middle triangle turned over", |q, right| points(q, right, Misread::MiddleTurnedOver)),
    ("inner corners with the texture of the old one", |q, right| points(q, right, Misread::TextureCarried)),
    ("inner corners with the normal of the old one", |q, right| points(q, right, Misread::NormalCarried)),
    ("inner corners with the mark of the old one", |q, right| points(q, right, Misread::MarkCarried)),
    ("old corners without their mark", |_, right| with_corners(right, |corner| corner[INDICES] = 0)),
    ("old corners without their texture", |_, right| without(right, 1)),
    ("old corners without their normal", |_, right| without(right, 2)),
    ("inner corners with texture 0", |_, right| zeros(right)),
    // The counts.
    ("positions counted by their numbers", |_, right| counted(right, 0, 3)),
    ("corners counted by their numbers", |_, right| counted(right, 1, WIDTH as u64)),
    ("three faces counted for one", |q, right| {
        accepted(right, || {
            let mut answer = right.clone();
            answer.counts[2] = Count::Is(3 * q.mesh.sizes.len() as u64);
            answer
        })
    }),
    // The order of the numbers.
    ("15 before 7", |q, right| ordered(q, right, &[15, 7, 16, 10, 17, 1, 9])),
    ("16 before 15", |q, right| ordered(q, right, &[7, 16, 15, 10, 17, 1, 9])),
    ("10 before 16", |q, right| ordered(q, right, &[7, 15, 10, 16, 17, 1, 9])),
    ("17 before 10", |q, right| ordered(q, right, &[7, 15, 16, 17, 10, 1, 9])),
    ("1 before 17", |q, right| ordered(q, right, &[7, 15, 16, 10, 1, 17, 9])),
    ("9 before 1", |q, right| ordered(q, right, &[7, 15, 16, 10, 17, 9, 1])),
    ("9 at its place in other calls", |q, right| ordered(q, right, &[9, 7, 15, 16, 10, 17, 1])),
    ("ascending numbers", |q, right| ordered(q, right, &[1, 7, 9, 10, 15, 16, 17])),
    // What earns a number.
    ("positions not looked at", |q, right| faulty(q, right, |_, f| f.boundless = false)),
    ("texture points looked at", |q, right| faulty(q, right, |q, f| f.boundless |= q.mesh.textures.iter().any(is_boundless))),
    ("normals looked at", |q, right| faulty(q, right, |q, f| f.boundless |= q.mesh.normals.iter().any(is_boundless))),
    ("a position at 2^60 refused", |q, right| {
        faulty(q, right, |q, f| f.boundless |= q.mesh.positions.iter().any(|x| x.abs() >= 2f64.powi(60)))
    }),
    ("a position above 2^60 taken", |q, right| {
        faulty(q, right, |q, f| f.boundless = q.mesh.positions.iter().any(|x| !x.is_finite()))
    }),
    ("a position that is not a number taken", |q, right| {
        faulty(q, right, |q, f| f.boundless = q.mesh.positions.iter().any(|x| x.abs() > 2f64.powi(60)))
    }),
    ("larger faces let through", |q, right| faulty(q, right, |_, f| f.larger = false)),
    ("folded faces let through", |q, right| faulty(q, right, |_, f| f.folded = false)),
    ("only the first and the second corner of a face compared", |q, right| {
        faulty(q, right, |q, f| f.folded = q.mesh.faces().iter().any(|face| face[0][0] == face[1][0]))
    }),
    ("positions in no face let through", |q, right| faulty(q, right, |_, f| f.unused = false)),
    ("no faces refused", |q, right| faulty(q, right, |q, f| f.unused |= q.mesh.sizes.is_empty())),
    ("a mesh with a hem refused", |q, right| faulty(q, right, |q, f| f.weak |= verdict(&q.mesh) == Verdict::Oriented)),
    ("an Irregular mesh taken", |q, right| faulty(q, right, |q, f| f.weak = verdict(&q.mesh) == Verdict::Regular)),
    ("a Regular mesh taken", |q, right| faulty(q, right, |q, f| f.weak = verdict(&q.mesh) == Verdict::Irregular)),
    ("65 neighbours taken", |q, right| faulty(q, right, |q, f| f.crowded = most_neighbours(&q.mesh) > 65)),
    ("64 neighbours refused", |q, right| faulty(q, right, |q, f| f.crowded = most_neighbours(&q.mesh) > 63)),
    ("faces around a position counted, not its neighbours", |q, right| {
        faulty(q, right, |q, f| f.crowded = most_faces(&q.mesh) > 64)
    }),
    ("neighbours not counted", |q, right| faulty(q, right, |_, f| f.crowded = false)),
    ("a cosine that is not a number taken", |q, right| cosines(q, right, |x| !(*x < -1.0 || *x > 1.0))),
    ("a cosine just above 1 taken", |q, right| cosines(q, right, |x| (-1.0..=1.0 + f64::EPSILON).contains(x))),
    ("a cosine just below -1 taken", |q, right| cosines(q, right, |x| (-1.0 - f64::EPSILON..=1.0).contains(x))),
    ("an infinite cosine taken", |q, right| cosines(q, right, |x| x.is_infinite() || (-1.0..=1.0).contains(x))),
    ("a cosine of 1 refused", |q, right| cosines(q, right, |x| (-1.0..1.0).contains(x))),
    ("a cosine of -1 refused", |q, right| cosines(q, right, |x| -1.0 < *x && *x <= 1.0)),
    ("63 cosines taken", |q, right| lengths(q, right, 63..=64)),
    ("65 cosines taken", |q, right| lengths(q, right, 64..=65)),
    ("the first list of cosines not looked at", |q, right| faulty(q, right, |q, f| f.off = is_off(&q.twos))),
    ("the second list of cosines not looked at", |q, right| faulty(q, right, |q, f| f.off = is_off(&q.ones))),
    ("cosines that no position needs not looked at", |q, right| {
        faulty(q, right, |q, f| {
            let mut needed = [q.ones.clone(), q.twos.clone()];
            needed.iter_mut().for_each(|list| list.iter_mut().skip(most_neighbours(&q.mesh)).for_each(|cosine| *cosine = 0.5));
            f.off = needed.iter().any(|list| is_off(list));
        })
    }),
    ("cosines looked at only where there are faces", |q, right| faulty(q, right, |q, f| f.off &= !q.mesh.sizes.is_empty())),
    ("cosines looked up, not taken as they are given", |q, right| {
        accepted(right, || {
            let [ones, twos] = rust::cosines();
            Answer::smoothed(loop_subdivision(&q.mesh, Question { ones, twos, ..Question::default() }.cosines()))
        })
    }),
    ("342 triangles taken", |q, right| faulty(q, right, |q, f| f.over = q.mesh.sizes.len() > 342)),
    ("341 triangles refused", |q, right| faulty(q, right, |q, f| f.over = q.mesh.sizes.len() > 340)),
    ("the result's limits not asked", |q, right| faulty(q, right, |_, f| f.over = false)),
    ("the room for positions not counted", |q, right| faulty(q, right, |q, f| f.short = is_short(q, &[1, 2]))),
    ("the room for corners not counted", |q, right| faulty(q, right, |q, f| f.short = is_short(q, &[0, 2]))),
    ("the room for sizes not counted", |q, right| faulty(q, right, |q, f| f.short = is_short(q, &[0, 1]))),
    ("room asked only as far as the result goes", |q, right| {
        faulty(q, right, |q, f| f.short = is_short(q, &[1, 2]) || q.rooms[0] < q.mesh.positions.len() + 3 * edges(&q.mesh).len())
    }),
    ("room for two positions to a face more", |q, right| {
        faulty(q, right, |q, f| f.short |= q.rooms[0] < q.mesh.positions.len() + 4 * q.mesh.corner_count())
    }),
];

fn points(question: &Question, right: &Answer, misread: Misread) -> Option<Answer> {
    accepted(right, || smoothed(question, misread))
}

/// The corners of an answer, changed.
fn with_corners(right: &Answer, change: impl Fn(&mut [u32])) -> Option<Answer> {
    accepted(right, || {
        let mut answer = right.clone();
        if let Numbers::Words(corners) = &mut answer.lists[1] {
            corners.chunks_mut(WIDTH).for_each(&change);
        }
        answer
    })
}

fn without(right: &Answer, column: usize) -> Option<Answer> {
    with_corners(right, |corner| corner[column] = MISSING)
}

fn zeros(right: &Answer) -> Option<Answer> {
    with_corners(right, |corner| corner[1] = if corner[1] == MISSING { 0 } else { corner[1] })
}

fn counted(right: &Answer, which: usize, times: u64) -> Option<Answer> {
    accepted(right, || {
        let mut answer = right.clone();
        if let Count::Is(count) = &mut answer.counts[which] {
            *count *= times;
        }
        answer
    })
}

/// What there is to refuse in a mesh that earns none of 1 to 5.
struct Faults {
    boundless: bool,
    larger: bool,
    folded: bool,
    unused: bool,
    weak: bool,
    off: bool,
    crowded: bool,
    over: bool,
    short: bool,
}

impl Faults {
    fn of(question: &Question) -> Faults {
        let mesh = &question.mesh;
        let used: BTreeSet<u32> = mesh.corners.iter().step_by(WIDTH).copied().collect();
        let is_folded = |positions: Vec<u32>| positions.iter().collect::<BTreeSet<_>>().len() < positions.len();
        Faults {
            boundless: mesh.positions.iter().any(is_boundless),
            larger: mesh.sizes.iter().any(|size| *size != 3),
            folded: mesh.faces().iter().any(|face| is_folded(face.iter().map(|corner| corner[0]).collect())),
            unused: used.len() < mesh.positions.len() / 3,
            weak: [Verdict::Irregular, Verdict::Regular].contains(&verdict(mesh)),
            off: is_off(&question.ones) || is_off(&question.twos),
            crowded: most_neighbours(mesh) > 64,
            over: 4 * mesh.sizes.len() > 1_365,
            short: is_short(question, &[0, 1, 2]),
        }
    }

    /// The first number of an order that is earned; 0 where none is.
    fn number(&self, order: &[u32]) -> u32 {
        let is_earned = |number: &&u32| match number {
            7 => self.boundless,
            15 => self.larger,
            16 => self.folded || self.unused,
            10 => self.weak,
            17 => self.off || self.crowded,
            1 => self.over,
            _ => self.short,
        };
        order.iter().find(is_earned).copied().unwrap_or(0)
    }
}

fn ordered(question: &Question, right: &Answer, order: &[u32]) -> Option<Answer> {
    if number(question) != 0 {
        return None;
    }
    answered(right, Faults::of(question).number(order))
}

/// The right order, with another thought of what is to be refused.
fn faulty(question: &Question, right: &Answer, misread: fn(&Question, &mut Faults)) -> Option<Answer> {
    if number(question) != 0 {
        return None;
    }
    let mut faults = Faults::of(question);
    misread(question, &mut faults);
    answered(right, faults.number(&[7, 15, 16, 10, 17, 1, 9]))
}

/// The right order and the right thought: never another number.
#[cfg(test)]
pub fn no_fault(question: &Question, right: &Answer) -> Option<Answer> {
    faulty(question, right, |_, _| ())
}

/// Another number; where it is 0 by mistake, with nothing made.
fn answered(right: &Answer, number: u32) -> Option<Answer> {
    (number != right.number).then(|| Answer::refused(Call::LoopSubdivision, number))
}

/// Lists of 64 whose cosines are taken by another rule.
fn cosines(question: &Question, right: &Answer, is_taken: fn(&f64) -> bool) -> Option<Answer> {
    let is_off = |list: &[f64]| list.len() != 64 || !list.iter().all(is_taken);
    let is_off = is_off(&question.ones) || is_off(&question.twos);
    with_off(question, right, is_off)
}

fn lengths(question: &Question, right: &Answer, taken: std::ops::RangeInclusive<usize>) -> Option<Answer> {
    let is_off = |list: &[f64]| !taken.contains(&list.len()) || !list.iter().all(|x| (-1.0..=1.0).contains(x));
    let is_off = is_off(&question.ones) || is_off(&question.twos);
    with_off(question, right, is_off)
}

fn with_off(question: &Question, right: &Answer, is_off: bool) -> Option<Answer> {
    let set: fn(&Question, &mut Faults) = if is_off { |_, f| f.off = true } else { |_, f| f.off = false };
    faulty(question, right, set)
}

/// Not 64 of them, or one that is not within -1 to 1.
fn is_off(cosines: &[f64]) -> bool {
    cosines.len() != 64 || !cosines.iter().all(|x| (-1.0..=1.0).contains(x))
}

fn edges(mesh: &Mesh) -> BTreeSet<(u32, u32)> {
    let ends = |face: &[Corner], i: usize| (face[i][0], face[(i + 1) % face.len()][0]);
    let faces = mesh.faces();
    faces.iter().flat_map(|face| (0..face.len()).map(move |i| ends(face, i))).map(|(a, b)| (a.min(b), a.max(b))).collect()
}

fn most_neighbours(mesh: &Mesh) -> usize {
    let mut counts = vec![0; mesh.positions.len() / 3];
    for (one, other) in edges(mesh) {
        counts[one as usize] += 1;
        counts[other as usize] += 1;
    }
    counts.into_iter().max().unwrap_or(0)
}

fn most_faces(mesh: &Mesh) -> usize {
    let mut counts = vec![0; mesh.positions.len() / 3];
    mesh.corners.iter().step_by(WIDTH).for_each(|position| counts[*position as usize] += 1);
    counts.into_iter().max().unwrap_or(0)
}

/// Whether one of these lists is lent with less than its stated room.
fn is_short(question: &Question, lists: &[usize]) -> bool {
    let stated = stated_rooms(Call::LoopSubdivision, &question.mesh);
    lists.iter().any(|list| question.rooms[*list] < stated[*list])
}
