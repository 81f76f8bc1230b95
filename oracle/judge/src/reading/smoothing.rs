//! 'Smoothing by Loop's method', the fourth request of document 02. The arithmetic is read from the text of the Rust once more: each step is
//! one f64 operation on each axis.

use super::edges;
use super::numbers::{is_boundless, ATTRIBUTES, CORNERS, FACES};
use crate::mesh::{Corner, Mesh, Smoothed, Verdict, MISSING, WIDTH};
use std::collections::BTreeMap;

/// How long a list of cosines is, and how many neighbours a position may have.
pub const COSINES: usize = 64;

/// The cosines of pi/n and of 2·pi/n, n from 1 on.
#[derive(Clone, Copy)]
pub struct Cosines<'a> {
    pub ones: &'a [f64],
    pub twos: &'a [f64],
}

/// The numbers that come after those of a mesh and before that of the rooms, in this order; 0 where none is given. The mesh earns none of 1 to 5.
pub fn number(mesh: &Mesh, cosines: Cosines) -> u32 {
    if mesh.positions.iter().any(is_boundless) {
        return 7;
    }
    if mesh.sizes.iter().any(|size| *size != 3) {
        return 15;
    }
    if has_folded(mesh) || has_unused(mesh) {
        return 16;
    }
    if ![Verdict::Oriented, Verdict::Closed].contains(&edges::verdict(mesh)) {
        return 10;
    }
    let surface = Surface::of(mesh);
    let is_crowded = surface.neighbours.iter().any(|neighbours| neighbours.len() > COSINES);
    if is_off(cosines.ones) || is_off(cosines.twos) || is_crowded {
        return 17;
    }
    if over_limits(mesh.positions.len() / 3 + surface.edges.len(), 4 * mesh.corner_count(), 4 * mesh.sizes.len()) {
        return 1;
    }
    0
}

/// Two corners of a triangle have equal positions.
fn has_folded(mesh: &Mesh) -> bool {
    mesh.faces().iter().any(|face| face[0][0] == face[1][0] || face[1][0] == face[2][0] || face[2][0] == face[0][0])
}

/// A position is in no face.
fn has_unused(mesh: &Mesh) -> bool {
    let mut is_used = vec![false; mesh.positions.len() / 3];
    mesh.corners.iter().step_by(WIDTH).for_each(|position| is_used[*position as usize] = true);
    is_used.contains(&false)
}

/// A list of cosines isn't 64 long, or holds a value not within -1 to 1; what is not a number is not within.
fn is_off(cosines: &[f64]) -> bool {
    cosines.len() != COSINES || !cosines.iter().all(|cosine| (-1.0..=1.0).contains(cosine))
}

/// Of a result with so many positions, corners and faces. (Four faces for one are over their limit before the others are over theirs.)
fn over_limits(positions: usize, corners: usize, faces: usize) -> bool {
    positions > ATTRIBUTES || corners > CORNERS || faces > FACES
}

/// An edge: its lower and its higher position, and the third position of each face that uses it, in face order.
struct Edge {
    lower: usize,
    higher: usize,
    wings: Vec<usize>,
}

/// What a triangle is beside: its edges, by first use, which of them joins two positions, and the neighbours of each position, by first use of the
/// edge between.
struct Surface {
    edges: Vec<Edge>,
    between: BTreeMap<(usize, usize), usize>,
    neighbours: Vec<Vec<usize>>,
}

impl Surface {
    /// The edges of a face are looked at in this order: that across from its first corner, from its second, from its third.
    fn of(mesh: &Mesh) -> Surface {
        let neighbours = vec![vec![]; mesh.positions.len() / 3];
        let mut surface = Surface { edges: vec![], between: BTreeMap::new(), neighbours };
        for face in mesh.faces() {
            let [a, b, c] = [0, 1, 2].map(|corner: usize| face[corner][0] as usize);
            surface.used(b, c, a);
            surface.used(c, a, b);
            surface.used(a, b, c);
        }
        surface
    }

    fn used(&mut self, start: usize, end: usize, wing: usize) {
        let (lower, higher) = (start.min(end), start.max(end));
        if !self.between.contains_key(&(lower, higher)) {
            self.between.insert((lower, higher), self.edges.len());
            self.edges.push(Edge { lower, higher, wings: vec![] });
            self.neighbours[start].push(end);
            self.neighbours[end].push(start);
        }
        let edge = self.edge(start, end);
        self.edges[edge].wings.push(wing);
    }

    fn edge(&self, one: usize, other: usize) -> usize {
        self.between[&(one.min(other), one.max(other))]
    }

    fn is_hem(&self, one: usize, other: usize) -> bool {
        self.edges[self.edge(one, other)].wings.len() == 1
    }

    /// An inner position is on no hem edge; a position of the boundary goes by the other ends of its first two.
    fn hems_at(&self, position: usize) -> Option<[usize; 2]> {
        let mut ends = self.neighbours[position].iter().copied().filter(|end| self.is_hem(position, *end));
        Some([ends.next()?, ends.next()?])
    }

    fn count(&self, position: usize) -> usize {
        self.neighbours[position].len()
    }
}

/// Old positions moved, then one for each edge by first use; four triangles for one. The mesh and the cosines earn no number.
pub fn loop_subdivision(mesh: &Mesh, cosines: Cosines) -> Smoothed {
    let surface = Surface::of(mesh);
    let points: Vec<Point> = mesh.positions.chunks(3).map(|p| Point([p[0], p[1], p[2]])).collect();
    let moved = (0..points.len()).map(|position| moved(position, &surface, &points, cosines));
    let of_edges = surface.edges.iter().map(|edge| point_of_edge(edge, &surface, &points, cosines));
    let faces: Vec<Vec<Corner>> = mesh.faces().iter().flat_map(|face| quarters(face, &surface)).collect();
    let made = Mesh::default().with_faces(&faces);
    Smoothed { positions: moved.chain(of_edges).flat_map(|point| point.0).collect(), corners: made.corners, sizes: made.sizes }
}

/// Where an old position goes: a corner, with two neighbours only, stays.
fn moved(position: usize, surface: &Surface, points: &[Point], cosines: Cosines) -> Point {
    let (point, neighbours) = (points[position], &surface.neighbours[position]);
    match surface.hems_at(position) {
        Some(_) if neighbours.len() == 2 => point,
        Some([one, other]) => point.plus(points[one].minus(point).plus(points[other].minus(point)).over(8.0)),
        None => {
            let count = neighbours.len() as f64;
            let share = 3.0 / 8.0 + cosines.twos[neighbours.len() - 1] / 4.0;
            let share = (5.0 / 8.0 - share * share) / count;
            let sum = neighbours.iter().fold(Point([0.0; 3]), |sum, end| sum.plus(points[*end].minus(point)));
            point.plus(sum.times(share))
        }
    }
}

/// The point of an edge: the middle of a hem edge; else it goes by its ends and its two wings. (An end of an edge that is used twice is no corner:
/// all edges of a corner are hem edges.)
fn point_of_edge(edge: &Edge, surface: &Surface, points: &[Point], cosines: Cosines) -> Point {
    let (lower, higher) = (points[edge.lower], points[edge.higher]);
    let [first, second] = match edge.wings[..] {
        [first, second] => [points[first], points[second]],
        _ => return lower.plus(higher.minus(lower).over(2.0)),
    };
    let part = if surface.hems_at(edge.lower).is_some() {
        5.0 / 8.0 - cosines.ones[surface.count(edge.lower) - 1] / 4.0
    } else if surface.hems_at(edge.higher).is_some() {
        3.0 / 8.0 + cosines.ones[surface.count(edge.higher) - 1] / 4.0
    } else {
        0.5
    };
    let along = lower.plus(higher.minus(lower).times(part));
    along.plus(first.minus(lower).over(8.0)).plus(second.minus(higher).over(8.0))
}

/// The four triangles of one: the three at its corners, then the middle one. New corners carry no texture, no normal and no mark; the old ones keep theirs.
fn quarters(face: &[Corner], surface: &Surface) -> Vec<Vec<Corner>> {
    let old = surface.neighbours.len();
    let [a, b, c] = [face[0], face[1], face[2]];
    let middle = |one: Corner, other: Corner| -> Corner {
        [(old + surface.edge(one[0] as usize, other[0] as usize)) as u32, MISSING, MISSING, 0]
    };
    let (across_a, across_b, across_c) = (middle(b, c), middle(c, a), middle(a, b));
    vec![
        vec![a, across_c, across_b],
        vec![across_a, c, across_b],
        vec![across_a, across_c, b],
        vec![across_a, across_b, across_c],
    ]
}

/// A point, or a way from one to another.
#[derive(Clone, Copy)]
struct Point([f64; 3]);

impl Point {
    fn plus(self, other: Point) -> Point {
        let ([a, b, c], [x, y, z]) = (self.0, other.0);
        Point([a + x, b + y, c + z])
    }

    fn minus(self, other: Point) -> Point {
        let ([a, b, c], [x, y, z]) = (self.0, other.0);
        Point([a - x, b - y, c - z])
    }

    fn times(self, by: f64) -> Point {
        Point(self.0.map(|x| x * by))
    }

    fn over(self, by: f64) -> Point {
        Point(self.0.map(|x| x / by))
    }
}
