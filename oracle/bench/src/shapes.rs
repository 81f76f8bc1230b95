//! The meshes that are measured, each at about so many corners.

use comparer::Random;
use judge::mesh::Corner;
use judge::reading::numbers::ATTRIBUTES;
use judge::{Mesh, MISSING};

/// A mesh, and the tolerance that it is merged with.
pub struct Case {
    pub name: &'static str,
    pub mesh: Mesh,
    pub tolerance: f64,
}

/// What every call is measured on.
pub fn all(corners: usize) -> Vec<Case> {
    let case = |name, mesh| Case { name, mesh, tolerance: 1.0 / 1024.0 };
    vec![
        case("tube", tube(corners)),
        case("ball", ball(corners)),
        case("scattered", scattered(corners)),
        case("fan", fan(corners)),
        case("separate triangles", separate(corners)),
    ]
}

/// What smoothing is measured on, each of so many triangles, or a few less.
pub fn of_triangles(triangles: usize) -> Vec<Case> {
    let case = |name, mesh| Case { name, mesh, tolerance: 1.0 };
    let apart = (0..triangles as u32).map(|k| vec![3 * k, 3 * k + 1, 3 * k + 2]).collect();
    vec![
        case("tube of triangles", triangle_tube(triangles)),
        case("ball of triangles", triangle_ball(triangles)),
        case("sheet of triangles", triangle_sheet(triangles)),
        case("triangles apart", mesh((0..3 * triangles).map(|i| circle(i, 3 * triangles, 0.5)).collect(), apart)),
    ]
}

/// What a scan is made of, each of so many triangles: a tube, whose points stand in six triangles each; as many different points as a mesh may have,
/// anywhere, in any order; and eight points.
pub fn scanned(triangles: usize) -> Vec<Case> {
    let case = |name, mesh| Case { name, mesh, tolerance: 1.0 };
    vec![
        case("tube of triangles", triangle_tube(triangles)),
        case("spread points", anywhere(triangles, (3 * triangles).min(ATTRIBUTES))),
        case("eight points", anywhere(triangles, 8)),
    ]
}

/// Triangles over so many points anywhere, each used about as often as the next, in any order.
fn anywhere(triangles: usize, points: usize) -> Mesh {
    let random = Random::of(2, triangles as u64);
    let mut corners: Vec<u32> = (0..3 * triangles).map(|i| (i % points) as u32).collect();
    random.shuffle(&mut corners);
    let places = (0..points).map(|_| [random.unit(), random.unit(), random.unit()]).collect();
    mesh(places, corners.chunks(3).map(|three| three.to_vec()).collect())
}

/// Points on a grid whose cells are far apart, half as many as there are corners in each list.
pub fn spread_points(corners: usize) -> Case {
    let grid = |i: usize| [i % 16, i / 16 % 16, i / 256].map(|x| x as f64);
    let mesh = cloud(corners, grid, |i| [i % 32, i / 32].map(|x| x as f64));
    Case { name: "spread points", mesh, tolerance: 1.0 / 64.0 }
}

/// Points that are all in one cell and all near, half as many as there are corners in each list.
pub fn one_cell(corners: usize) -> Case {
    let height = |i: usize| 0.1 / (1 + i) as f64;
    let mesh = cloud(corners, |i| [0.1, 0.1, height(i)], |i| [0.1, height(i)]);
    Case { name: "one cell", mesh, tolerance: 0.5 }
}

/// The corners of a round face, the most that a face may have.
const AROUND: usize = 300;

/// Round faces, so many corners in all: strips that hang together by half of their edges each; in petals, a hundred triangles at one position; and
/// folded deeply, each face in another way.
pub fn round(corners: usize) -> Vec<Case> {
    let faces = corners / AROUND;
    let points = (AROUND / 2 * faces).max(AROUND);
    let case = |name, face: &dyn Fn(usize) -> Vec<usize>| {
        let faces = (0..faces).map(|k| face(k).into_iter().map(|i| (i % points) as u32).collect()).collect();
        Case { name, mesh: mesh((0..points).map(|i| circle(i, points, 0.5)).collect(), faces), tolerance: 1.0 / 1024.0 }
    };
    let half = AROUND / 2;
    // Up one arc and down the next; the last arc is the first again, where there are enough of them.
    let strip = |k: usize| (k * half..(k + 1) * half).chain(((k + 1) * half..(k + 2) * half).rev()).collect();
    let petals = |k: usize| (0..AROUND).map(|i| k * half + if i % 3 == 0 { 0 } else { i }).collect();
    let deep = |k: usize| -> Vec<usize> {
        let folded: fn(usize) -> usize = match k % 3 {
            // The first two equal positions stand at the end of the first half; there and back; all at one position.
            0 => |i| if i < AROUND / 2 { i } else { AROUND / 2 - 1 },
            1 => |i| i.min(AROUND - 1 - i),
            _ => |_| 0,
        };
        (0..AROUND).map(|i| k * AROUND / 2 + folded(i)).collect()
    };
    vec![case("round faces", &strip), case("round faces in petals", &petals), case("round faces folded deeply", &deep)]
}

/// Quadrangles, 16 around, open at both ends.
fn tube(corners: usize) -> Mesh {
    let (around, along) = (16, corners / 64);
    let at = |x: usize, y: usize| (y * around + x % around) as u32;
    let cells = (0..along).flat_map(|y| (0..around).map(move |x| (x, y)));
    let faces = cells.map(|(x, y)| vec![at(x, y), at(x + 1, y), at(x + 1, y + 1), at(x, y + 1)]).collect();
    let place = |i: usize| circle(i % around, around, (i / around) as f64 / along as f64);
    mesh((0..around * (along + 1)).map(place).collect(), faces)
}

/// A tube of quadrangles, 16 around, of which two rows in three have every second one left out, by turns: rings of holes, each touching the next.
pub fn touching_holes(corners: usize) -> Case {
    let (around, along) = (16, 3 * corners / 128);
    let at = |x: usize, y: usize| (y * around + x % around) as u32;
    let cells = (0..along).flat_map(|y| (0..around).map(move |x| (x, y))).filter(|(x, y)| y % 3 == 2 || (x + y % 3) % 2 == 1);
    let faces = cells.map(|(x, y)| vec![at(x, y), at(x + 1, y), at(x + 1, y + 1), at(x, y + 1)]).collect();
    let place = |i: usize| circle(i % around, around, (i / around) as f64 / along as f64);
    Case { name: "touching holes", mesh: mesh((0..around * (along + 1)).map(place).collect(), faces), tolerance: 1.0 / 1024.0 }
}

/// Rings of quadrangles, 16 around, between two poles of triangles: closed.
fn ball(corners: usize) -> Mesh {
    let (around, rings) = (16, corners / 64 - 1);
    let at = |x: usize, y: usize| (y * around + x % around) as u32;
    let (south, north) = ((around * rings) as u32, (around * rings + 1) as u32);
    let mut faces: Vec<Vec<u32>> = (0..around).map(|x| vec![at(x + 1, 0), at(x, 0), south]).collect();
    faces.extend((0..around).map(|x| vec![at(x, rings - 1), at(x + 1, rings - 1), north]));
    let cells = (0..rings - 1).flat_map(|y| (0..around).map(move |x| (x, y)));
    faces.extend(cells.map(|(x, y)| vec![at(x, y), at(x + 1, y), at(x + 1, y + 1), at(x, y + 1)]));
    let mut places: Vec<[f64; 3]> =
        (0..around * rings).map(|i| circle(i % around, around, (i / around + 1) as f64 / (rings + 1) as f64)).collect();
    places.extend([[0.0, 0.0, 0.0], [0.0, 0.0, 1.0]]);
    mesh(places, faces)
}

/// Squares cut in two, so many in a row; the last row is not full.
fn cut_squares(triangles: usize, wide: usize, at: impl Fn(usize, usize) -> u32) -> Vec<Vec<u32>> {
    let half = |k: usize| {
        let (x, y) = (k / 2 % wide, k / 2 / wide);
        match k % 2 {
            0 => vec![at(x, y), at(x + 1, y), at(x + 1, y + 1)],
            _ => vec![at(x, y), at(x + 1, y + 1), at(x, y + 1)],
        }
    };
    (0..triangles).map(half).collect()
}

/// Without the places that no face uses.
fn used(places: Vec<[f64; 3]>, faces: Vec<Vec<u32>>) -> Mesh {
    let mut used: Vec<u32> = faces.iter().flatten().copied().collect();
    used.sort_unstable();
    used.dedup();
    let new = |old: &u32| used.binary_search(old).unwrap() as u32;
    let faces = faces.iter().map(|face| face.iter().map(new).collect()).collect();
    mesh(used.iter().map(|old| places[*old as usize]).collect(), faces)
}

/// As many around as it takes to be about as long as it is wide.
fn triangle_tube(triangles: usize) -> Mesh {
    let around = (3..).find(|around| 2 * around * around >= triangles).unwrap();
    let faces = cut_squares(triangles, around, |x, y| (y * around + x % around) as u32);
    let rows = triangles / (2 * around) + 2;
    used((0..around * rows).map(|i| circle(i % around, around, (i / around) as f64 / rows as f64)).collect(), faces)
}

fn triangle_sheet(triangles: usize) -> Mesh {
    let wide = (1..).find(|wide| 2 * wide * wide >= triangles).unwrap();
    let faces = cut_squares(triangles, wide, |x, y| (y * (wide + 1) + x) as u32);
    let rows = triangles / (2 * wide) + 2;
    let place = |i: usize| [(i % (wide + 1)) as f64 / 7.0, (i / (wide + 1)) as f64 / 11.0, (i % 5) as f64 / 13.0];
    used((0..(wide + 1) * rows).map(place).collect(), faces)
}

/// Rings of cut squares between two poles of triangles: closed. It has as many triangles as whole rings have.
fn triangle_ball(triangles: usize) -> Mesh {
    let around = (3..).find(|around| 2 * (around + 1) * (around + 1) > triangles).unwrap();
    let rings = triangles / (2 * around);
    let at = |x: usize, y: usize| (y * around + x % around) as u32;
    let (south, north) = ((around * rings) as u32, (around * rings + 1) as u32);
    let mut faces: Vec<Vec<u32>> = (0..around).map(|x| vec![at(x + 1, 0), at(x, 0), south]).collect();
    faces.extend((0..around).map(|x| vec![at(x, rings - 1), at(x + 1, rings - 1), north]));
    faces.extend(cut_squares(2 * around * (rings - 1), around, at));
    let place = |i: usize| circle(i % around, around, (i / around + 1) as f64 / (rings + 1) as f64);
    mesh((0..around * rings).map(place).chain([[0.0, 0.0, 0.0], [0.0, 0.0, 1.0]]).collect(), faces)
}

/// Faces of 3 to 8 corners anywhere, one in four of them folded, with texture points and normals anywhere and some missing.
fn scattered(corners: usize) -> Mesh {
    let (random, points) = (Random::of(1, corners as u64), corners / 2);
    let (mut faces, mut left): (Vec<Vec<Corner>>, usize) = (vec![], corners);
    while left >= 8 {
        let size = random.within(3, 8);
        let index = |random: &Random| if random.once_in(10) { MISSING } else { random.below(points) as u32 };
        let mut face: Vec<Corner> = (0..size).map(|_| [random.below(points) as u32, index(&random), index(&random), 0]).collect();
        if random.once_in(4) {
            face[size - 1][0] = face[random.below(size - 2)][0];
        }
        faces.push(face);
        left -= size;
    }
    faces.sort_by_key(|face| face.len().min(5));
    let places = |width: usize| (0..width * points).map(|_| random.unit()).collect();
    Mesh { positions: places(3), textures: places(2), normals: places(3), ..Mesh::default() }.with_faces(&faces)
}

/// Triangles around one position.
fn fan(corners: usize) -> Mesh {
    let blades = corners / 3;
    let faces = (0..blades as u32).map(|i| vec![0, i + 1, i + 2]).collect();
    mesh((0..blades + 2).map(|i| circle(i, blades + 2, 0.0)).collect(), faces)
}

/// Triangles that share no edge. (There are too few positions for as many that share no position.)
fn separate(corners: usize) -> Mesh {
    let points = corners / 2;
    let faces = (0..corners / 3).map(|k| [k, k + 1, k + 3].map(|i| (i % points) as u32).to_vec()).collect();
    mesh((0..points).map(|i| circle(i, points, 0.0)).collect(), faces)
}

/// Positions and normals in one place each, texture points in another; quadrangles that use them all.
fn cloud(corners: usize, place: impl Fn(usize) -> [f64; 3], texture: impl Fn(usize) -> [f64; 2]) -> Mesh {
    let points = corners / 2;
    let corner = |i: usize| by_one((i % points) as u32);
    let faces: Vec<Vec<Corner>> = (0..corners / 4).map(|k| (4 * k..4 * k + 4).map(corner).collect()).collect();
    Mesh {
        positions: (0..points).flat_map(&place).collect(),
        textures: (0..points).flat_map(texture).collect(),
        normals: (0..points).flat_map(&place).collect(),
        ..Mesh::default()
    }
    .with_faces(&faces)
}

fn circle(i: usize, around: usize, height: f64) -> [f64; 3] {
    let angle = i as f64 / around as f64 * std::f64::consts::TAU;
    [angle.cos(), angle.sin(), height]
}

/// The corner whose indices are all one, with no mark.
fn by_one(index: u32) -> Corner {
    [index, index, index, 0]
}

/// Faces by positions; each position has a texture point and a normal of its own.
fn mesh(places: Vec<[f64; 3]>, mut faces: Vec<Vec<u32>>) -> Mesh {
    faces.sort_by_key(|face| face.len().min(5));
    let faces: Vec<Vec<Corner>> = faces.into_iter().map(|face| face.into_iter().map(by_one).collect()).collect();
    Mesh {
        positions: places.iter().flatten().copied().collect(),
        textures: places.iter().flat_map(|p| [p[0], p[2]]).collect(),
        normals: places.iter().flatten().copied().collect(),
        ..Mesh::default()
    }
    .with_faces(&faces)
}
