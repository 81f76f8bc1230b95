//! Smoothings with one misreading each, of an accepted question.

use judge::mesh::{Corner, Smoothed};
use judge::{Answer, Mesh, Question, MISSING};
use std::collections::BTreeMap;

/// Which misreading.
#[derive(Clone, Copy, PartialEq)]
pub enum Misread {
    /// The right reading: a test holds it to the others, so that what the misreadings show is theirs alone.
    None,
    WingsExchanged,
    BothWingsOverLower,
    MovedForEdges,
    MovedInPlace,
    ListsExchanged,
    CosinesFromZero,
    CosineOfTheOtherEnd,
    HigherFirst,
    DirectionOfUse,
    BetweenHemsInner,
    EighthsExchanged,
    HalfTheSum,
    MiddleOfEvery,
    ShareDividedFirst,
    Fused,
    WeighedOneByOne,
    FromTheLast,
    AscendingNeighbours,
    EighthOfEach,
    LastTwoHems,
    NoCorner,
    CornerByHems,
    PinchStays,
    NothingMoved,
    RingOrder,
    AscendingEdges,
    EdgesFirst,
    MiddleFirst,
    RingOrderOfFaces,
    BegunAtOldCorner,
    MiddleTurnedOver,
    TextureCarried,
    NormalCarried,
    MarkCarried,
}

type Point = [f64; 3];

/// The edges of a mesh: their ends, their wings, and the neighbours of each position.
struct Net<'a> {
    misread: Misread,
    ones: &'a [f64],
    twos: &'a [f64],
    ends: Vec<[usize; 2]>,
    wings: Vec<Vec<usize>>,
    numbers: BTreeMap<[usize; 2], usize>,
    near: Vec<Vec<usize>>,
}

fn key(one: usize, other: usize) -> [usize; 2] {
    [one.min(other), one.max(other)]
}

/// What smoothing answers with this misreading.
pub fn smoothed(question: &Question, misread: Misread) -> Answer {
    let mesh = &question.mesh;
    let net = Net::of(question, misread);
    let old: Vec<Point> = mesh.positions.chunks(3).map(|p| [p[0], p[1], p[2]]).collect();
    let mut moved = old.clone();
    for position in 0..old.len() {
        let from = if misread == Misread::MovedInPlace { &moved } else { &old };
        moved[position] = net.moved(position, from);
    }
    let from = if misread == Misread::MovedForEdges { &moved } else { &old };
    let mut of_edges = vec![[0.0; 3]; net.ends.len()];
    (0..net.ends.len()).for_each(|edge| of_edges[net.place(edge)] = net.point(edge, from));
    let points = if misread == Misread::EdgesFirst { [of_edges, moved].concat() } else { [moved, of_edges].concat() };
    let faces: Vec<Vec<Corner>> = mesh.faces().iter().flat_map(|face| net.quarters([face[0], face[1], face[2]])).collect();
    let Mesh { corners, sizes, .. } = Mesh::default().with_faces(&faces);
    Answer::smoothed(Smoothed { positions: points.concat(), corners, sizes })
}

impl Net<'_> {
    fn of(question: &Question, misread: Misread) -> Net<'_> {
        let (ones, twos) = (&question.ones[..], &question.twos[..]);
        let (ones, twos) = if misread == Misread::ListsExchanged { (twos, ones) } else { (ones, twos) };
        let near = vec![vec![]; question.mesh.positions.len() / 3];
        let mut net = Net { misread, ones, twos, ends: vec![], wings: vec![], numbers: BTreeMap::new(), near };
        let order = if misread == Misread::RingOrder { [0, 1, 2] } else { [1, 2, 0] };
        for face in question.mesh.faces() {
            for start in order {
                let [a, b, wing] = [0, 1, 2].map(|i: usize| face[(start + i) % 3][0] as usize);
                if let Some(edge) = net.numbers.get(&key(a, b)) {
                    net.wings[*edge].push(wing);
                    continue;
                }
                net.numbers.insert(key(a, b), net.ends.len());
                net.ends.push(if misread == Misread::DirectionOfUse { [a, b] } else { key(a, b) });
                net.wings.push(vec![wing]);
                net.near[a].push(b);
                net.near[b].push(a);
            }
        }
        if misread == Misread::AscendingNeighbours {
            net.near.iter_mut().for_each(|near| near.sort_unstable());
        }
        net
    }

    /// The place of an edge among those of the result.
    fn place(&self, edge: usize) -> usize {
        let ends = key(self.ends[edge][0], self.ends[edge][1]);
        if self.misread == Misread::AscendingEdges {
            self.numbers.range(..ends).count()
        } else {
            edge
        }
    }

    fn hems(&self, position: usize) -> Vec<usize> {
        let is_hem = |other: &usize| self.wings[self.numbers[&key(position, *other)]].len() == 1;
        let mut hems: Vec<usize> = self.near[position].iter().copied().filter(is_hem).collect();
        if self.misread == Misread::LastTwoHems {
            hems.reverse();
        }
        hems
    }

    fn cosine(&self, list: &[f64], count: usize) -> f64 {
        list[if self.misread == Misread::CosinesFromZero { count % 64 } else { count - 1 }]
    }

    fn moved(&self, position: usize, from: &[Point]) -> Point {
        let (point, near, hems) = (from[position], &self.near[position], self.hems(position));
        let is_corner = match self.misread {
            Misread::NoCorner => false,
            Misread::CornerByHems => hems.len() == 2,
            Misread::PinchStays => hems.len() > 2 || near.len() == 2,
            Misread::NothingMoved => true,
            _ => near.len() == 2,
        };
        if is_corner && (!hems.is_empty() || self.misread == Misread::NothingMoved) {
            return point;
        }
        let axis = |k: usize| {
            let p = point[k];
            let to = |other: usize| from[other][k] - p;
            if hems.len() >= 2 {
                if self.misread == Misread::EighthOfEach {
                    return p + to(hems[0]) / 8.0 + to(hems[1]) / 8.0;
                }
                return p + (to(hems[0]) + to(hems[1])) / 8.0;
            }
            let count = near.len() as f64;
            let part = 3.0 / 8.0 + self.cosine(self.twos, near.len()) / 4.0;
            let share = match self.misread {
                Misread::ShareDividedFirst => (5.0 / 8.0) / count - part * part / count,
                Misread::Fused => (-part).mul_add(part, 5.0 / 8.0) / count,
                _ => (5.0 / 8.0 - part * part) / count,
            };
            let ways = near.iter().map(|other| to(*other));
            match self.misread {
                Misread::WeighedOneByOne => ways.fold(p, |sum, way| sum + way * share),
                Misread::FromTheLast => p + ways.rev().fold(0.0, |sum, way| sum + way) * share,
                Misread::Fused => ways.fold(0.0, |sum, way| sum + way).mul_add(share, p),
                _ => p + ways.fold(0.0, |sum, way| sum + way) * share,
            }
        };
        [axis(0), axis(1), axis(2)]
    }

    fn point(&self, edge: usize, from: &[Point]) -> Point {
        let [lower, higher] = self.ends[edge];
        let wings = &self.wings[edge];
        let axis = |k: usize| {
            let (a, b) = (from[lower][k], from[higher][k]);
            if wings.len() < 2 || self.misread == Misread::MiddleOfEvery {
                return if self.misread == Misread::HalfTheSum { (a + b) / 2.0 } else { a + (b - a) / 2.0 };
            }
            let (mut first, mut second) = (from[wings[0]][k], from[wings[1]][k]);
            if self.misread == Misread::WingsExchanged {
                std::mem::swap(&mut first, &mut second);
            }
            let other = if self.misread == Misread::BothWingsOverLower { a } else { b };
            let along = match self.misread {
                Misread::Fused => (b - a).mul_add(self.part(lower, higher), a),
                _ => a + (b - a) * self.part(lower, higher),
            };
            along + (first - a) / 8.0 + (second - other) / 8.0
        };
        [axis(0), axis(1), axis(2)]
    }

    /// How far along an inner edge its point begins.
    fn part(&self, lower: usize, higher: usize) -> f64 {
        let is_bound = |position: usize| !self.hems(position).is_empty();
        let (one, other) = if self.misread == Misread::CosineOfTheOtherEnd { (higher, lower) } else { (lower, higher) };
        let cosine = |position: usize| self.cosine(self.ones, self.near[position].len()) / 4.0;
        let (five, three) = if self.misread == Misread::EighthsExchanged { (3.0, 5.0) } else { (5.0, 3.0) };
        let (at_lower, at_higher) = (five / 8.0 - cosine(one), three / 8.0 + cosine(other));
        match (is_bound(lower), is_bound(higher)) {
            (false, false) => 0.5,
            (true, true) if self.misread == Misread::BetweenHemsInner => 0.5,
            (true, true) if self.misread == Misread::HigherFirst => at_higher,
            (true, _) => at_lower,
            (false, true) => at_higher,
        }
    }

    fn quarters(&self, [a, b, c]: [Corner; 3]) -> Vec<Vec<Corner>> {
        let carried = |misread: Misread, old: u32, new: u32| if self.misread == misread { old } else { new };
        let corner = |place: usize, old: Corner| {
            let (texture, normal) =
                (carried(Misread::TextureCarried, old[1], MISSING), carried(Misread::NormalCarried, old[2], MISSING));
            [place as u32, texture, normal, carried(Misread::MarkCarried, old[3], 0)]
        };
        let old = self.near.len();
        let middle = |one: Corner, other: Corner| {
            let place = self.place(self.numbers[&key(one[0] as usize, other[0] as usize)]);
            corner(if self.misread == Misread::EdgesFirst { place } else { old + place }, one)
        };
        let kept = |corner: Corner| {
            let moved = if self.misread == Misread::EdgesFirst { self.ends.len() as u32 } else { 0 };
            [corner[0] + moved, corner[1], corner[2], corner[3]]
        };
        let (ab, bc, ca) = (middle(a, b), middle(b, c), middle(c, a));
        let (a, b, c) = (kept(a), kept(b), kept(c));
        match self.misread {
            Misread::MiddleFirst => vec![vec![bc, ca, ab], vec![a, ab, ca], vec![bc, c, ca], vec![bc, ab, b]],
            Misread::RingOrderOfFaces => vec![vec![a, ab, ca], vec![bc, ab, b], vec![bc, c, ca], vec![bc, ca, ab]],
            Misread::BegunAtOldCorner => vec![vec![a, ab, ca], vec![c, ca, bc], vec![b, bc, ab], vec![bc, ca, ab]],
            Misread::MiddleTurnedOver => vec![vec![a, ab, ca], vec![bc, c, ca], vec![bc, ab, b], vec![bc, ab, ca]],
            _ => vec![vec![a, ab, ca], vec![bc, c, ca], vec![bc, ab, b], vec![bc, ca, ab]],
        }
    }
}
