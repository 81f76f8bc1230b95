//! Misreadings of house wires: of what follows a hem edge, of where a wire begins, and of where it closes.

use crate::wrong::{accepted, Wrong};
use judge::mesh::Verdict;
use judge::reading::edges::{hem_edges, ported_wires, verdict};
use judge::{Answer, Call, Mesh, Question};
use std::collections::{BTreeMap, BTreeSet};

/// The misreadings, each by its name.
pub const HOUSE: &[(&str, Wrong)] = &[
    ("the smallest end, as document 01 had it", |q, right| accepted(right, || Answer::rows(&smallest_end(&q.mesh)))),
    ("no crossing", |q, right| misread(q, right, Misread::NoCrossing)),
    ("one crossing and no more", |q, right| misread(q, right, Misread::OneCrossing)),
    ("crossing without turning", |q, right| accepted(right, || Answer::rows(&with_crossed(&q.mesh)))),
    ("a face not crossed to itself", |q, right| misread(q, right, Misread::NotToItself)),
    ("the hem edge itself taken as next", |q, right| misread(q, right, Misread::Itself)),
    ("an edge from a position to itself crossed", |q, right| misread(q, right, Misread::SelfCrossed)),
    ("a wire that closes at its first position", |q, right| misread(q, right, Misread::ClosedAtPosition)),
    ("begun at the smallest end", |q, right| misread(q, right, Misread::ByEnd)),
    ("of one start the largest end first", |q, right| misread(q, right, Misread::LargestEnd)),
    ("begun where the first face has a hem edge", |q, right| misread(q, right, Misread::ByFace)),
    ("ported wires given", |q, right| accepted(right, || Answer::rows(&ported_wires(&q.mesh)))),
    ("room asked after the verdict", verdict_before_room),
];

#[derive(Clone, Copy, PartialEq)]
pub enum Misread {
    /// The right reading: a test holds it to the other, so that what the misreadings show is theirs alone.
    #[cfg(test)]
    None,
    NoCrossing,
    OneCrossing,
    NotToItself,
    Itself,
    SelfCrossed,
    ClosedAtPosition,
    ByEnd,
    LargestEnd,
    ByFace,
}

/// An edge by start and end, as a face uses it.
type Step = [u32; 2];

/// A mesh that is Oriented or Closed: the steps in the order of the faces, for each the one after it in its face, and its face; and the hem edges.
struct Cloth {
    steps: Vec<Step>,
    after: BTreeMap<Step, Step>,
    face: BTreeMap<Step, usize>,
    hems: BTreeSet<Step>,
}

fn reverse([start, end]: Step) -> Step {
    [end, start]
}

impl Cloth {
    fn of(mesh: &Mesh) -> Cloth {
        let (mut steps, mut after, mut faces) = (vec![], BTreeMap::new(), BTreeMap::new());
        for (number, face) in mesh.faces().iter().enumerate() {
            let n = face.len();
            let own: Vec<Step> = (0..n).map(|i| [face[i][0], face[(i + 1) % n][0]]).collect();
            after.extend((0..n).map(|i| (own[i], own[(i + 1) % n])));
            faces.extend(own.iter().map(|step| (*step, number)));
            steps.extend(own);
        }
        Cloth { steps, after, face: faces, hems: hem_edges(mesh).into_iter().collect() }
    }

    /// What follows a hem edge. None where a misreading goes round and round.
    fn following(&self, arriving: Step, misread: Misread) -> Option<Step> {
        if misread == Misread::Itself {
            return Some(arriving);
        }
        let (mut edge, mut crossed) = (self.after[&arriving], false);
        for _ in 0..=self.steps.len() {
            if self.hems.contains(&edge) {
                return Some(edge);
            }
            let stays = match misread {
                Misread::NoCrossing => true,
                Misread::OneCrossing => crossed,
                Misread::NotToItself => self.face[&edge] == self.face[&reverse(edge)],
                _ => false,
            };
            crossed = true;
            edge = self.after[&if stays { edge } else { reverse(edge) }];
        }
        None
    }

    /// The hem edge that begins a wire: the first of those left, in an order.
    fn first(&self, unused: &BTreeSet<Step>, misread: Misread) -> Option<Step> {
        match misread {
            Misread::ByEnd => unused.iter().min_by_key(|step| reverse(**step)).copied(),
            Misread::LargestEnd => unused.iter().min_by_key(|[start, end]| (*start, std::cmp::Reverse(*end))).copied(),
            Misread::ByFace => self.steps.iter().find(|step| unused.contains(*step)).copied(),
            _ => unused.iter().next().copied(),
        }
    }
}

/// House wires with one misreading, of an accepted question. A wire ends where an edge would be used again.
pub fn wires(mesh: &Mesh, misread: Misread) -> Vec<Vec<u32>> {
    let mut cloth = Cloth::of(mesh);
    if misread == Misread::SelfCrossed {
        cloth.hems.retain(|[start, end]| start != end);
    }
    let mut unused = cloth.hems.clone();
    let mut wires = vec![];
    while let Some(first) = cloth.first(&unused, misread) {
        let (mut wire, mut next) = (vec![], Some(first));
        while let Some(edge) = next.filter(|edge| unused.remove(edge)) {
            wire.push(edge[0]);
            let is_back = misread == Misread::ClosedAtPosition && edge[1] == first[0];
            next = if is_back { None } else { cloth.following(edge, misread) };
        }
        wires.push(wire);
    }
    wires
}

fn misread(question: &Question, right: &Answer, misread: Misread) -> Option<Answer> {
    accepted(right, || Answer::rows(&wires(&question.mesh, misread)))
}

/// The edges that are crossed stand in the wires.
fn with_crossed(mesh: &Mesh) -> Vec<Vec<u32>> {
    let cloth = Cloth::of(mesh);
    let mut unused = cloth.hems.clone();
    let mut wires = vec![];
    while let Some(first) = unused.iter().next().copied() {
        let (mut wire, mut edge) = (vec![], first);
        while wire.is_empty() || edge != first {
            unused.remove(&edge);
            wire.push(edge[0]);
            let next = cloth.after[&edge];
            edge = if cloth.hems.contains(&next) { next } else { reverse(next) };
        }
        wires.push(wire);
    }
    wires
}

/// At each position the unused hem edge with the smallest end, until the first position comes again: the rule that request 5 took back.
pub fn smallest_end(mesh: &Mesh) -> Vec<Vec<u32>> {
    let mut unused: BTreeSet<Step> = hem_edges(mesh).into_iter().collect();
    let mut wires = vec![];
    while let Some([first, _]) = unused.iter().next().copied() {
        let (mut wire, mut at) = (vec![], first);
        while wire.is_empty() || at != first {
            let edge = *unused.range([at, 0]..).next().unwrap();
            unused.remove(&edge);
            wire.push(at);
            at = edge[1];
        }
        wires.push(wire);
    }
    wires
}

fn verdict_before_room(question: &Question, right: &Answer) -> Option<Answer> {
    let is_weak = || [Verdict::Irregular, Verdict::Regular].contains(&verdict(&question.mesh));
    (right.number == 9 && is_weak()).then(|| Answer::refused(Call::HouseWires, 10))
}
