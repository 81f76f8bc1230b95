//! Questions to smoothing: surfaces of triangles, most of them accepted, and what earns each of its numbers.

use crate::random::Random;
use crate::{coordinates, damage, marks, meshes};
use judge::mesh::{Corner, WIDTH};
use judge::reading::numbers::{mesh_number, stated_rooms};
use judge::{rust, Call, Mesh, Question, MISSING};
use std::collections::{BTreeMap, BTreeSet};

/// Triangles by positions.
type Triangles = Vec<[u32; 3]>;

/// The most triangles whose result is within the limits.
const MOST: usize = 341;

/// A small mesh: three times of four without the positions that are in no face.
pub fn small(random: &Random, mesh: &Mesh) -> Question {
    let mut mesh = mesh.clone();
    if !random.once_in(4) {
        drop_unused(&mut mesh);
    }
    let rooms = stated_rooms(Call::LoopSubdivision, &mesh);
    let [ones, twos] = rust::cosines();
    Question { mesh, ones, twos, rooms, ..Question::default() }
}

/// A surface at random, a third of them damaged: most are small, few are at the limits.
pub fn question(random: &Random) -> Question {
    let triangles = surface(random);
    let mut question = Question { mesh: furnished(random, triangles), ..Question::default() };
    let [ones, twos] = cosines(random);
    (question.ones, question.twos) = (ones, twos);
    if random.once_in(3) {
        (0..random.pick(&[1, 1, 1, 2, 2, 3])).for_each(|_| spoil(random, &mut question));
    }
    let stated = stated_rooms(Call::LoopSubdivision, &question.mesh);
    question.rooms = if random.once_in(2) { damage::rooms(random, stated) } else { stated };
    question
}

/// The triangles of a mesh that is accepted, but that a position may have over 64 neighbours, and that there may be a triangle too many.
fn surface(random: &Random) -> Triangles {
    let lot = random.below(1_000);
    let most = match lot {
        0..=779 => random.within(0, 14),
        780..=939 => random.within(8, 70),
        940..=959 => random.within(60, MOST),
        960..=979 => random.within(140, 200),
        _ => random.pick(&[MOST - 1, MOST, MOST + 1, MOST + 1]),
    };
    let (is_crowded, is_exact) = ((960..=979).contains(&lot), lot >= 980);
    let mut triangles = if is_crowded { crowded(random) } else { shape(random, most) };
    if random.once_in(3) {
        pinch(random, &mut triangles);
    }
    let holes = random.pick(&[0, 0, 0, 12, 4]);
    if holes > 0 && !is_crowded {
        triangles.retain(|_| !random.once_in(holes));
    }
    turn(random, &mut triangles);
    keep_oriented(&mut triangles);
    triangles.truncate(most);
    if is_exact {
        let next = triangles.iter().flatten().max().map_or(0, |last| last + 1);
        (0..).take(most - triangles.len()).for_each(|k| triangles.push([0, 1, 2].map(|corner| next + 3 * k + corner)));
    }
    renumber(random, &mut triangles);
    triangles
}

fn shape(random: &Random, most: usize) -> Triangles {
    match random.below(11) {
        0..=2 => sheet(random, most),
        3 => strip(most),
        4 => fan(random, most.min(70)),
        5 => two_poles((most / 2).clamp(2, 64)),
        6 => solid(random, most),
        7..=8 => anywhere(random, most),
        9 => (0..most as u32).map(|k| [3 * k, 3 * k + 1, 3 * k + 2]).collect(),
        _ => {
            let mut one = shape(random, most / 2);
            let behind = one.iter().flatten().max().map_or(0, |last| last + 1);
            one.extend(shape(random, most - most / 2).iter().map(|triangle| triangle.map(|position| behind + position)));
            one
        }
    }
}

/// Squares, each cut along one or the other diagonal: flat, a tube, or a ring of tube.
fn sheet(random: &Random, most: usize) -> Triangles {
    let squares = (most / 2).max(1);
    let wide = random.within(1, squares.min(18));
    let high = (squares / wide).max(1);
    let (around, along) = (wide >= 3 && random.once_in(2), high >= 3 && random.once_in(3));
    let (columns, rows) = (if around { wide } else { wide + 1 }, if along { high } else { high + 1 });
    let at = |x: usize, y: usize| (y % rows * columns + x % columns) as u32;
    let mut triangles = vec![];
    for (x, y) in (0..high).flat_map(|y| (0..wide).map(move |x| (x, y))) {
        let [a, b, c, d] = [at(x, y), at(x + 1, y), at(x + 1, y + 1), at(x, y + 1)];
        triangles.extend(if random.once_in(2) { [[a, b, c], [a, c, d]] } else { [[a, b, d], [b, c, d]] });
    }
    triangles
}

/// Each triangle on the edge of the one before.
fn strip(most: usize) -> Triangles {
    (0..most as u32).map(|k| if k % 2 == 0 { [k, k + 1, k + 2] } else { [k + 1, k, k + 2] }).collect()
}

/// A position with 63 to 66 neighbours.
fn crowded(random: &Random) -> Triangles {
    let blades = random.pick(&[63, 64, 64, 65]);
    if random.once_in(3) {
        two_poles(blades)
    } else {
        fan(random, blades)
    }
}

/// Triangles around a middle, open or closed. Its neighbours are as many as its blades, and one more where it is open.
fn fan(random: &Random, blades: usize) -> Triangles {
    let (blades, closed) = (blades as u32, random.once_in(2));
    (0..blades).map(|k| [0, 1 + k, 1 + if closed && k + 1 == blades { 0 } else { k + 1 }]).collect()
}

/// Triangles between a ring and two poles: closed.
fn two_poles(around: usize) -> Triangles {
    let around = around as u32;
    let next = |k: u32| 2 + (k + 1) % around;
    (0..around).flat_map(|k| [[0, 2 + k, next(k)], [1, next(k), 2 + k]]).collect()
}

/// A solid of 4, 8 or 20 triangles, each of them cut in four as often as there is room; or a triangle and its back.
fn solid(random: &Random, most: usize) -> Triangles {
    let tetrahedron: &[[u32; 3]] = &[[0, 1, 2], [0, 2, 3], [0, 3, 1], [1, 3, 2]];
    let octahedron: &[[u32; 3]] = &[[0, 2, 4], [2, 1, 4], [1, 3, 4], [3, 0, 4], [2, 0, 5], [1, 2, 5], [3, 1, 5], [0, 3, 5]];
    let mut triangles = match random.below(5) {
        0 => vec![[0, 1, 2], [2, 1, 0]],
        1 => tetrahedron.to_vec(),
        2 => icosahedron(),
        _ => octahedron.to_vec(),
    };
    while 4 * triangles.len() <= most {
        triangles = cut_in_four(&triangles);
    }
    triangles
}

/// Two poles, and two rings of five between them.
fn icosahedron() -> Triangles {
    let (upper, lower) = (|k: u32| 1 + k % 5, |k: u32| 6 + k % 5);
    let around = |k: u32| {
        [
            [0, upper(k), upper(k + 1)],
            [upper(k), lower(k), upper(k + 1)],
            [lower(k), lower(k + 1), upper(k + 1)],
            [11, lower(k + 1), lower(k)],
        ]
    };
    (0..5).flat_map(around).collect()
}

fn cut_in_four(triangles: &[[u32; 3]]) -> Triangles {
    let mut next = triangles.iter().flatten().max().map_or(0, |last| last + 1);
    let mut middles: BTreeMap<(u32, u32), u32> = BTreeMap::new();
    let mut middle = |a: u32, b: u32| {
        *middles.entry((a.min(b), a.max(b))).or_insert_with(|| {
            next += 1;
            next - 1
        })
    };
    let mut cut = vec![];
    for [a, b, c] in triangles.iter().copied() {
        let (ab, bc, ca) = (middle(a, b), middle(b, c), middle(c, a));
        cut.extend([[a, ab, ca], [ab, b, bc], [ca, bc, c], [ab, bc, ca]]);
    }
    cut
}

/// Triangles anywhere over few positions, of which those are kept that use no edge too often.
fn anywhere(random: &Random, most: usize) -> Triangles {
    let positions = random.within(3, 3 + random.pick(&[1, most / 2, most]));
    let mut triangles: Triangles = (0..4 * most).map(|_| [0; 3].map(|_: u32| random.below(positions) as u32)).collect();
    keep_oriented(&mut triangles);
    triangles
}

/// The positions of faces, one after the other.
fn flat<F: AsMut<[u32]>>(faces: &mut [F]) -> impl Iterator<Item = &mut u32> {
    faces.iter_mut().flat_map(|face| face.as_mut())
}

/// Makes two positions one, up to three times: openings touch, and surfaces hang together at a point.
pub fn pinch<F: AsMut<[u32]>>(random: &Random, faces: &mut [F]) {
    let positions: Vec<u32> = flat(faces).map(|position| *position).collect();
    if positions.is_empty() {
        return;
    }
    for _ in 0..random.within(1, 3) {
        let (from, to) = (random.pick(&positions), random.pick(&positions));
        flat(faces).filter(|position| **position == from).for_each(|position| *position = to);
    }
}

/// Turns the faces about, all of them over, and changes their order.
pub fn turn<F: AsMut<[u32]>>(random: &Random, faces: &mut [F]) {
    let (begins_elsewhere, is_over) = (random.once_in(2), random.once_in(4));
    for face in faces.iter_mut().map(|face| face.as_mut()) {
        if begins_elsewhere {
            face.rotate_left(random.below(face.len()));
        }
        if is_over {
            face.reverse();
        }
    }
    if random.once_in(2) {
        random.shuffle(faces);
    }
}

/// Keeps the triangles that are not folded and that use no edge in a direction in which it was used before.
fn keep_oriented(triangles: &mut Triangles) {
    let mut used: BTreeSet<(u32, u32)> = BTreeSet::new();
    triangles.retain(|[a, b, c]| {
        let steps = [(*a, *b), (*b, *c), (*c, *a)];
        let is_kept = a != b && b != c && c != a && !steps.iter().any(|step| used.contains(step));
        used.extend(steps.iter().filter(|_| is_kept));
        is_kept
    });
}

/// Gives the positions that are used the numbers from 0 on, by first use or in any order.
pub fn renumber<F: AsMut<[u32]>>(random: &Random, faces: &mut [F]) {
    let mut names: BTreeMap<u32, u32> = BTreeMap::new();
    for position in flat(faces) {
        let next = names.len() as u32;
        names.entry(*position).or_insert(next);
    }
    let mut numbers: Vec<u32> = (0..names.len() as u32).collect();
    if random.once_in(2) {
        random.shuffle(&mut numbers);
    }
    flat(faces).for_each(|position| *position = numbers[names[position] as usize]);
}

/// With coordinates, texture points, normals and marks.
fn furnished(random: &Random, triangles: Triangles) -> Mesh {
    let faces: Vec<Vec<u32>> = triangles.iter().map(|triangle| triangle.to_vec()).collect();
    let positions = triangles.iter().flatten().max().map_or(0, |last| *last as usize + 1);
    let (textures, texture_column) = meshes::column(random, &faces);
    let (normals, normal_column) = meshes::column(random, &faces);
    let mut places = 0..;
    let mut faces: Vec<Vec<Corner>> = faces
        .iter()
        .map(|face| {
            let corner = |(position, place): (&u32, usize)| [*position, texture_column[place], normal_column[place], 0];
            face.iter().zip(places.by_ref()).map(corner).collect()
        })
        .collect();
    marks::put(random, &mut faces);
    let positions = match random.below(4) {
        0 => coordinates::list(random, positions, 3, 0.3),
        1 => (0..3 * positions).map(|_| coordinates::anything_ordinary(random)).collect(),
        _ => coordinates::spread(random, 3 * positions),
    };
    let textures = coordinates::list(random, textures, 2, 0.3);
    let normals = coordinates::list(random, normals, 3, 0.3);
    Mesh { positions, textures, normals, ..Mesh::default() }.with_faces(&faces)
}

/// The Rust's own cosines; now and then other ones that are taken.
fn cosines(random: &Random) -> [Vec<f64>; 2] {
    let mut lists = rust::cosines();
    let edges = [1.0, -1.0, 0.0, -0.0, 5e-324, -5e-324, next_below(1.0), -next_below(1.0)];
    match random.below(16) {
        0 => lists.iter_mut().flatten().for_each(|cosine| *cosine = random.unit() * 2.0 - 1.0),
        1 => lists.iter_mut().for_each(|list| list.fill(random.pick(&edges))),
        2 => lists.iter_mut().flatten().filter(|_| random.once_in(4)).for_each(|cosine| *cosine = random.pick(&edges)),
        _ => {}
    }
    lists
}

fn next_below(x: f64) -> f64 {
    f64::from_bits(x.to_bits() - 1)
}

fn next_above(x: f64) -> f64 {
    f64::from_bits(x.to_bits() + 1)
}

/// Spoils something. Most of it earns a number; some of it is still accepted.
fn spoil(random: &Random, question: &mut Question) {
    let mesh = &mut question.mesh;
    match random.below(12) {
        0 => damage::mesh(random, mesh),
        1 => spoil_coordinate(random, &mut mesh.positions),
        2 => {
            spoil_coordinate(random, &mut mesh.textures);
            spoil_coordinate(random, &mut mesh.normals);
        }
        3 => mesh.positions.extend([0.5; 3]),
        4..=6 => spoil_cosines(random, question),
        _ if mesh_number(mesh) == 0 && !mesh.sizes.is_empty() => spoil_faces(random, mesh),
        _ => {}
    }
}

/// A coordinate is at 2^60, above it, or not finite.
fn spoil_coordinate(random: &Random, list: &mut [f64]) {
    let most = 2f64.powi(60);
    let place = random.below(list.len());
    if let Some(coordinate) = list.get_mut(place) {
        let odd = [most, -most, next_above(most), -next_above(most), f64::MAX, coordinates::broken(random)];
        *coordinate = random.pick(&odd);
    }
}

/// One list is too short, too long, or has a value that is not within -1 to 1.
fn spoil_cosines(random: &Random, question: &mut Question) {
    let list = if random.once_in(2) { &mut question.ones } else { &mut question.twos };
    if random.once_in(4) {
        list.resize(random.pick(&[63, 65, 63, 65, 0, 1, 128]), 0.5);
        return;
    }
    let above = next_above(1.0);
    let odd = [above, -above, 2.0, f64::INFINITY, f64::NEG_INFINITY, f64::NAN, coordinates::broken(random), 1.0, -1.0];
    let place = if random.once_in(2) { random.below(list.len()) } else { random.pick(&[0, list.len().saturating_sub(1), 2]) };
    if let Some(cosine) = list.get_mut(place) {
        *cosine = random.pick(&odd);
    }
}

/// A face is folded, is there twice, is turned over, is beside two others on an edge, or is no triangle.
fn spoil_faces(random: &Random, mesh: &mut Mesh) {
    let mut faces = mesh.faces();
    let (which, positions) = (random.below(faces.len()), mesh.positions.len() / 3);
    let (corner, other) = (random.below(3), random.within(1, 2));
    match random.below(6) {
        0 => faces[which][corner][0] = faces[which][(corner + other) % 3][0],
        1 => faces.insert(0, faces[which].clone()),
        2 => faces[which].reverse(),
        3 => faces[which][corner][0] = random.below(positions) as u32,
        4 => {
            let [a, b] = [0, 1].map(|i: usize| faces[which][(corner + i) % 3]);
            faces.insert(0, vec![b, a, [random.below(positions) as u32, MISSING, MISSING, marks::one(random)]]);
        }
        _ => {
            let size = random.pick(&[4, 4, 5, 32]);
            faces.push((0..size).map(|_| [random.below(positions) as u32, MISSING, MISSING, marks::one(random)]).collect());
        }
    }
    faces.sort_by_key(|face| face.len().min(5));
    let spoilt = mesh.with_faces(&faces);
    if mesh_number(&spoilt) == 0 {
        *mesh = spoilt;
    }
}

/// Leaves out the positions that no corner uses.
fn drop_unused(mesh: &mut Mesh) {
    if mesh_number(mesh) != 0 {
        return;
    }
    let used: Vec<u32> = mesh.corners.iter().step_by(WIDTH).copied().collect::<BTreeSet<u32>>().into_iter().collect();
    mesh.positions = used.iter().flat_map(|position| mesh.positions[3 * *position as usize..][..3].to_vec()).collect();
    let new = |old: u32| used.binary_search(&old).unwrap() as u32;
    mesh.corners.iter_mut().step_by(WIDTH).for_each(|position| *position = new(*position));
}
