//! Panel files: made from random meshes, with records in any order, and then cut, lengthened and changed.

use crate::random::Random;
use crate::{coordinates, faults, marks, meshes};
use judge::mesh::{Corner, INDICES, WIDTH};
use judge::reading::{sheet, writing};
use judge::{Mesh, MISSING};

/// A random file.
pub fn random(random: &Random) -> Vec<u8> {
    match random.below(40) {
        0 => return (0..random.below(80)).map(|_| random.bits() as u8).collect(),
        1..=8 => return faults::random(random),
        _ => {}
    }
    of_mesh(random, &meshes::random(random).mesh)
}

/// A random file of a mesh whose hems touch.
pub fn with_touching_hems(random: &Random) -> Vec<u8> {
    of_mesh(random, &meshes::with_touching_hems(random).mesh)
}

/// A random file with faces of more than 32 corners: of a mesh, or a short one with faces of both kinds at the borders of each.
pub fn with_large_faces(random: &Random) -> Vec<u8> {
    if random.once_in(2) {
        return of_mesh(random, &meshes::with_large_faces(random).mesh);
    }
    let mut records = vec![record(1, &[0; 24])];
    records.extend((0..random.within(1, 3)).map(|_| at_a_border(random)));
    if random.once_in(3) {
        records.insert(random.below(records.len()), record(2, &[0; 16]));
    }
    spoilt(random, records)
}

/// A random file with marks: of a mesh, or a short one with faces of kind 6 at its borders.
pub fn with_marks(random: &Random) -> Vec<u8> {
    let mut records = vec![record(1, &[0; 24])];
    records.extend((0..random.within(1, 3)).map(|_| marked_at_a_border(random)));
    if random.once_in(3) {
        records.insert(random.below(records.len()), at_a_border(random));
    }
    spoilt(random, records)
}

/// A face of a number of corners, and of a kind, that is right, or just is not; its n may be another, by one byte or by both.
pub fn at_a_border(random: &Random) -> Vec<u8> {
    let (kind, corners) = match random.below(4) {
        0 => (4, random.pick(&[0, 2, 3, 31, 32, 33, 34, 44, 255])),
        1 => (5, random.pick(&[31, 32, 33, 34, 255, 256, 257])),
        2 => (5, random.pick(&[0, 3, 299, 300, 301, 302, 556, 1_365, 4_097, 5_461])),
        _ => return marked_at_a_border(random),
    };
    let position = if random.once_in(12) { 1 } else { 0 };
    misstated(random, face_of_kind(kind, &vec![[position, MISSING, MISSING, 0]; corners]))
}

/// The same of kind 6: with no mark, with one, in its first, its last or any corner, or with marks everywhere.
fn marked_at_a_border(random: &Random) -> Vec<u8> {
    let corners = match random.below(3) {
        0 => random.pick(&[0, 1, 2, 2, 3, 3, 4]),
        1 => random.pick(&[5, 31, 32, 33, 255, 256, 257]),
        _ => random.pick(&[299, 300, 300, 301, 301, 302, 556, 4_094, 4_095]),
    };
    let position = if random.once_in(12) { 1 } else { 0 };
    let mut face: Vec<Corner> = vec![[position, MISSING, MISSING, 0]; corners];
    let marked = match random.below(5) {
        0 => 0..0,
        1 => 0..1,
        2 => corners.saturating_sub(1)..corners,
        3 => random.below(corners)..corners,
        _ => 0..corners,
    };
    for corner in face.iter_mut().take(marked.end).skip(marked.start) {
        corner[INDICES] = random.pick(&[1, 2, 256, 65_536, 0x0100_0000, MISSING]);
    }
    misstated(random, face_of_kind(6, &face))
}

/// A face whose n may be another, by one byte or by both, and that may be cut.
fn misstated(random: &Random, mut face: Vec<u8>) -> Vec<u8> {
    if random.once_in(5) {
        let byte = 4 + random.below(count_bytes(face[2] as usize));
        face[byte] = random.pick(&[0, 1, 2, 32, 33, 44, 45, face[byte].wrapping_add(1), face[byte].wrapping_sub(1)]);
    }
    if random.once_in(10) {
        face.truncate(random.within(4, face.len()));
    }
    face
}

/// A file made from a mesh, and then perhaps spoilt.
fn of_mesh(random: &Random, mesh: &Mesh) -> Vec<u8> {
    let mut records = records(random, mesh);
    if random.once_in(12) {
        over_a_limit(random, &mut records);
    }
    if random.once_in(8) {
        break_some(random, &mut records);
    }
    spoilt(random, records)
}

/// The file of these records, in any order, and then perhaps cut, lengthened and changed.
fn spoilt(random: &Random, mut records: Vec<Vec<u8>>) -> Vec<u8> {
    if random.once_in(2) {
        random.shuffle(&mut records);
    }
    let mut file = records.concat();
    file.extend(record(0, &[]));
    if random.once_in(2) {
        (0..random.within(1, 3)).for_each(|_| damage(random, &mut file));
    }
    if random.once_in(60) {
        pad(random, &mut file);
    }
    file
}

pub fn record(kind: u16, body: &[u8]) -> Vec<u8> {
    [&(body.len() as u16).to_le_bytes(), &kind.to_le_bytes(), body].concat()
}

/// The records of a mesh, with some faces of 0, 1 or 2 corners among them.
fn records(random: &Random, mesh: &Mesh) -> Vec<Vec<u8>> {
    let attribute = |kind: u16, numbers: &[f64]| record(kind, &numbers.iter().flat_map(|x| x.to_le_bytes()).collect::<Vec<u8>>());
    let mut records: Vec<Vec<u8>> = vec![];
    records.extend(mesh.positions.chunks_exact(3).map(|p| attribute(1, p)));
    records.extend(mesh.textures.chunks_exact(2).map(|p| attribute(2, p)));
    records.extend(mesh.normals.chunks_exact(3).map(|p| attribute(3, p)));
    let corners: Vec<Corner> = mesh.corners.chunks_exact(WIDTH).map(|corner| corner.try_into().unwrap()).collect();
    let mut from = 0;
    for size in &mesh.sizes {
        let to = from + (*size as usize).min(corners.len() - from);
        records.push(face(&corners[from..to]));
        from = to;
        if random.once_in(8) {
            let few = random.below(3);
            records.push(face_of_kind(4, &[[random.pick(&[0, 1, MISSING, 2_048]); WIDTH]; 2][..few]));
        }
    }
    if random.once_in(16) {
        records.push(at_a_border(random));
    }
    records
}

/// A face of the kind that its marks and its size ask for.
pub fn face(corners: &[Corner]) -> Vec<u8> {
    let is_marked = corners.iter().any(|corner| corner[INDICES] != 0);
    face_of_kind(if is_marked { 6 } else { 4 + (corners.len() > 32) as u16 }, corners)
}

/// A face of kind 4, whose n has a byte, or of kind 5 or 6, whose n has two; kind 6 has the marks. A length that two bytes cannot say is cut to them.
pub fn face_of_kind(kind: u16, corners: &[Corner]) -> Vec<u8> {
    let count = corners.len().to_le_bytes().into_iter().take(count_bytes(kind as usize));
    let numbers = corners.iter().flat_map(|corner| &corner[..corner_bytes(kind as usize) / 4]);
    record(kind, &count.chain(numbers.flat_map(|number| number.to_le_bytes())).collect::<Vec<u8>>())
}

/// How many bytes n has in a kind of face.
pub fn count_bytes(kind: usize) -> usize {
    if kind == 4 {
        1
    } else {
        2
    }
}

/// How many bytes a corner has in a kind of face.
pub fn corner_bytes(kind: usize) -> usize {
    4 * if kind == 6 { WIDTH } else { INDICES }
}

/// A coordinate or two of the entries are not finite.
fn break_some(random: &Random, records: &mut [Vec<u8>]) {
    let mut entries: Vec<&mut Vec<u8>> = records.iter_mut().filter(|record| record[2] < 4).collect();
    for _ in 0..random.within(1, 2) {
        let place = random.below(entries.len());
        if let Some(entry) = entries.get_mut(place) {
            break_one(random, entry);
        }
    }
}

/// A coordinate of an entry is not finite.
pub fn break_one(random: &Random, entry: &mut [u8]) {
    let at = 4 + 8 * random.below((entry.len() - 4) / 8);
    entry[at..at + 8].copy_from_slice(&coordinates::broken(random).to_le_bytes());
}

/// One list comes to its limit or one entry over it.
fn over_a_limit(random: &Random, records: &mut Vec<Vec<u8>>) {
    let kind = random.within(1, 4) as u16;
    let there = records.iter().filter(|record| record[2] == kind as u8).count();
    if kind == 4 {
        let size = random.pick(&[3, 4, 16, 32, 64, 300]);
        let faces = 4_096 / size + random.below(2);
        *records = vec![face(&vec![[0, 0, 0, marks::one(random)]; size]); faces];
        records.push(record(1, &[0; 24]));
    } else {
        let wanted = 2_048 + random.below(2);
        let body = vec![0; if kind == 2 { 16 } else { 24 }];
        records.extend(vec![record(kind, &body); wanted.saturating_sub(there)]);
    }
}

/// Cuts the file, adds bytes, changes a byte or a header.
fn damage(random: &Random, file: &mut Vec<u8>) {
    let at = random.below(file.len());
    match random.below(8) {
        0 => file.truncate(at),
        1 => {
            let short = random.within(1, 5);
            file.truncate(file.len().saturating_sub(short));
        }
        2 => file.extend(vec![random.pick(&[0, 1, 255]); random.within(1, 5)]),
        3 if !file.is_empty() => {
            file.remove(at);
        }
        4 => file.insert(at, random.bits() as u8),
        5 => change_a_header(random, file),
        _ if !file.is_empty() => file[at] = random.pick(&[0, 1, 2, 3, 4, 5, 6, 7, 24, 33, 44, 255]),
        _ => {}
    }
}

/// Finds a record by its place in the file and changes its length, its kind, or a face's count.
fn change_a_header(random: &Random, file: &mut [u8]) {
    let (mut at, steps) = (0, random.below(12));
    for _ in 0..steps {
        let length = if at + 4 <= file.len() { u16::from_le_bytes([file[at], file[at + 1]]) as usize } else { 0 };
        if at + 8 + length > file.len() {
            break;
        }
        at += 4 + length;
    }
    let place = at + random.below(6);
    if place < file.len() {
        let there = file[place];
        let by = random.pick(&[12, 16]);
        let near = [there.wrapping_add(by), there.wrapping_sub(by)];
        file[place] = if random.once_in(6) {
            random.pick(&near)
        } else {
            random.pick(&[0, 1, 2, 3, 4, 5, 6, 7, 16, 24, 25, 33, 37, 44, 50])
        };
    }
}

/// Makes the file as long as one that has a sheet may be, or as the longest that a mesh can make, or a byte shorter or up to two longer.
fn pad(random: &Random, file: &mut Vec<u8>) {
    let length = random.pick(&[sheet::FILE, writing::LONGEST]) - 1 + random.below(4);
    pad_to(random, file, length);
}

/// Makes the file so long, where it is shorter by enough.
pub fn pad_to(random: &Random, file: &mut Vec<u8>, length: usize) {
    if file.len() + 5 * 17 > length {
        return;
    }
    // In front of it: faces of one corner, seventeen bytes each, so many that faces of none, five bytes each, fill the rest.
    let left = length - file.len();
    let of_one = 3 * left % 5 + 5 * random.below(left / (5 * 17));
    let of_none = (left - 17 * of_one) / 5;
    file.splice(0..0, [face(&[[0; WIDTH]]).repeat(of_one), face(&[]).repeat(of_none)].concat());
}
