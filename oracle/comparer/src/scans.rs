//! Scans: binary STL files of surfaces and of points anywhere; their count, their length and their points are spoilt then, or come to a limit.

use crate::meshes;
use crate::random::Random;
use judge::mesh::WIDTH;
use judge::reading::numbers::{ATTRIBUTES, FACES};
use judge::reading::scan::{Point, FRONT, HEADER, TRIANGLE};
use judge::{Mesh, MISSING};

const MINUS_ZERO: u32 = 0x8000_0000;

/// A random scan.
pub fn random(random: &Random) -> Vec<u8> {
    if random.once_in(40) {
        return (0..random.below(200)).map(|_| random.bits() as u8).collect();
    }
    let mut triangles = triangles(random);
    if random.once_in(3) {
        signs_of_zeros(random, &mut triangles);
    }
    if random.once_in(5) {
        break_some(random, &mut triangles);
    }
    let mut file = file(random, &triangles);
    if random.once_in(3) {
        (0..random.pick(&[1, 1, 1, 2])).for_each(|_| damage(random, &mut file));
    }
    file
}

/// Three points of each triangle.
pub type Triangles = Vec<[Point; 3]>;

fn triangles(random: &Random) -> Triangles {
    match random.below(40) {
        0..=1 => at_a_limit(random),
        2..=15 => of_mesh(random, &meshes::random(random).mesh),
        16..=25 => of_mesh(random, &meshes::with_touching_hems(random).mesh),
        _ => anywhere(random),
    }
}

/// A scan of these triangles, with anything for its header, its normals and its two-byte fields.
pub fn file(random: &Random, triangles: &[[Point; 3]]) -> Vec<u8> {
    let mut file = header(random);
    file.extend((triangles.len() as u32).to_le_bytes());
    let normal_of = normals(random);
    for triangle in triangles {
        let normal = normal_of(random, triangle);
        file.extend(normal.iter().chain(triangle.iter().flatten()).flat_map(|bits| bits.to_le_bytes()));
        file.extend((random.pick(&[0, 0, 1, 0xffff, random.bits() as u16]) as u16).to_le_bytes());
    }
    file
}

/// Zeros, text that begins as an ASCII file does, or anything.
fn header(random: &Random) -> Vec<u8> {
    let mut header = match random.below(4) {
        0 => vec![],
        1 => b"solid cover".to_vec(),
        2 => b"scanner 1.0\n".to_vec(),
        _ => (0..HEADER).map(|_| random.bits() as u8).collect(),
    };
    header.resize(HEADER, random.pick(&[0, b' ', 255]));
    header
}

/// What a file has for its normals: zeros, anything, what is not finite, or a point of the triangle.
fn normals(random: &Random) -> fn(&Random, &[Point; 3]) -> Point {
    random.pick(&[
        |_: &Random, _: &[Point; 3]| [0; 3],
        |random: &Random, _: &[Point; 3]| [random.bits() as u32, random.bits() as u32, random.bits() as u32],
        |random: &Random, _: &[Point; 3]| [broken(random), 0, broken(random)],
        |random: &Random, triangle: &[Point; 3]| random.pick(triangle),
    ])
}

/// The faces of a mesh, each cut into triangles around its first corner; position i has a point of its own.
fn of_mesh(random: &Random, mesh: &Mesh) -> Triangles {
    let point_of = points(random);
    let corners: Vec<u32> = mesh.corners.chunks_exact(WIDTH).map(|corner| corner[0]).collect();
    let (mut from, mut made) = (0, vec![]);
    for size in &mesh.sizes {
        let to = from + (*size as usize).min(corners.len() - from);
        let face = &corners[from..to];
        made.extend((2..face.len()).map(|i| [face[0], face[i - 1], face[i]].map(point_of)));
        from = to;
    }
    made.truncate(FACES + 1);
    made
}

/// Ways to give each number a point, all of them different below some thousands: on a grid, by its bits alone (where the least are
/// subnormal), in a row of numbers far apart, and each around zero.
fn points(random: &Random) -> fn(u32) -> Point {
    random.pick(&[
        |i: u32| [(i % 16) as f32 - 4.0, (i / 16) as f32 * 0.25, 1.5].map(f32::to_bits),
        |i: u32| [i.wrapping_add(1), i / 3, 0x007f_fffe + i % 5],
        |i: u32| [(i as f32 * i as f32 * i as f32).to_bits(), 0, f32::MAX.to_bits().wrapping_sub(i)],
        |i: u32| [i % 3, i / 3 % 3, i / 9].map(|n| if n == 1 { MINUS_ZERO + 1 } else { n }),
    ])
}

/// A few points, many of which have coordinates in common, and triangles anywhere over them.
fn anywhere(random: &Random) -> Triangles {
    let coordinates: Vec<u32> = (0..random.within(1, 5)).map(|_| coordinate(random)).collect();
    let pool: Vec<Point> = (0..random.within(1, 9)).map(|_| [0; 3].map(|_| random.pick(&coordinates))).collect();
    (0..random.pick(&[0, 1, 1, 2, 3, 5, 8, 13, 40])).map(|_| [0; 3].map(|_| random.pick(&pool))).collect()
}

/// A finite f32 by its bits: zeros, subnormals, both ends of each range, ordinary numbers, anything.
fn coordinate(random: &Random) -> u32 {
    let sign = random.pick(&[0, MINUS_ZERO]);
    sign | match random.below(8) {
        0..=1 => 0,
        2 => random.pick(&[1, 2, 0x0040_0000, 0x007f_ffff]),
        3 => random.bits() as u32 & 0x007f_ffff,
        4 => random.pick(&[0x0080_0000, 0x7f7f_ffff, 0x3f80_0000, 0x3f80_0001, 0x3f7f_ffff]),
        5..=6 => (random.below(9) as f32 * 0.25).to_bits(),
        _ => (random.bits() as u32 & 0x7fff_ffff) % 0x7f80_0000,
    }
}

/// Not a number, quiet or signalling, of either sign, most of them with digits of their own; or an infinity.
pub fn broken(random: &Random) -> u32 {
    let digits = random.pick(&[0, 0, 1, 1 << 21, 1 << 22, (1 << 23) - 1, random.bits() as u32 >> 9]);
    random.pick(&[0, MINUS_ZERO]) | 0xff << 23 | digits
}

/// As many triangles as fit, or one less or more, or as many as it takes; as many different points as fit, a few less or more, or all different.
fn at_a_limit(random: &Random) -> Triangles {
    let different =
        random.pick(&[1, ATTRIBUTES - 1, ATTRIBUTES, ATTRIBUTES, ATTRIBUTES + 1, ATTRIBUTES + 1, ATTRIBUTES + 2, 3 * FACES]);
    let triangles = if random.once_in(2) { FACES - 1 + random.below(3) } else { (different + 2) / 3 };
    let point_of = points(random);
    let mut numbers: Vec<u32> = (0..3 * triangles).map(|i| (i % different) as u32).collect();
    if random.once_in(2) {
        random.shuffle(&mut numbers);
    }
    numbers.chunks(3).map(|three| [three[0], three[1], three[2]].map(point_of)).collect()
}

/// Zeros get a sign, each by itself.
fn signs_of_zeros(random: &Random, triangles: &mut Triangles) {
    let zeros = triangles.iter_mut().flatten().flatten().filter(|bits| **bits << 1 == 0);
    zeros.for_each(|bits| *bits = random.pick(&[0, MINUS_ZERO]));
}

/// A coordinate or two of the points are not finite.
fn break_some(random: &Random, triangles: &mut Triangles) {
    let all = 9 * triangles.len();
    for _ in 0..random.within(1, 2) {
        let place = random.below(all);
        if let Some(coordinate) = triangles.iter_mut().flatten().flatten().nth(place) {
            *coordinate = broken(random);
        }
    }
}

/// Cuts the file, adds bytes, changes a byte or the count.
fn damage(random: &Random, file: &mut Vec<u8>) {
    let at = random.below(file.len());
    match random.below(9) {
        0 => file.truncate(at),
        1 => {
            let short = random.pick(&[1, 2, 12, 49, 50, 51]);
            file.truncate(file.len().saturating_sub(short));
        }
        2 => file.truncate(random.pick(&[0, 79, 80, 83, 84, 85])),
        3 => file.extend(vec![random.pick(&[0, 1, 255]); random.pick(&[1, 2, 49, 50, 51, 100])]),
        4 if !file.is_empty() => {
            file.remove(at);
        }
        5 => file.insert(at, random.bits() as u8),
        6..=7 => change_the_count(random, file),
        _ if !file.is_empty() => file[at] = random.pick(&[0, 1, 127, 128, 255]),
        _ => {}
    }
}

/// One less or more, the other end first, both sides of the limit, and those whose length does not fit in 32 bits: four bytes of triangles are
/// left then, or none.
fn change_the_count(random: &Random, file: &mut Vec<u8>) {
    if file.len() < FRONT {
        return;
    }
    let count = u32::from_le_bytes(file[HEADER..FRONT].try_into().unwrap());
    let (most, wraps) = (FACES as u32, 85_899_346);
    let other = random.pick(&[count.wrapping_sub(1), count + 1, count.swap_bytes(), most, most + 1, wraps, 1 << 31, MISSING]);
    file[HEADER..FRONT].copy_from_slice(&other.to_le_bytes());
    if random.once_in(2) && other != count {
        let asked = FRONT as u64 + TRIANGLE as u64 * other as u64;
        file.resize(asked.min(asked as u32 as u64).min((FRONT + TRIANGLE * (FACES + 1)) as u64) as usize, 0);
    }
}
