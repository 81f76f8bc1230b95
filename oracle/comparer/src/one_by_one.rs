//! The coordinates of a file and of a mesh one by one, the records of a file whatever is wrong with them, and what corners use: for misreadings
//! that look at some coordinates and not at others.

use crate::files::{corner_bytes, count_bytes};
use judge::mesh::{INDICES, WIDTH};
use judge::reading::door::is_broken;
use judge::Mesh;
use std::collections::BTreeSet;

/// How many coordinates an entry of each list has.
pub const WIDTHS: [usize; 3] = [3, 2, 3];

/// A coordinate: in which list, of which entry of it, at which place there.
pub struct Coordinate {
    pub list: usize,
    pub number: usize,
    pub place: usize,
    pub bits: u64,
}

impl Coordinate {
    pub fn is_broken(&self) -> bool {
        is_broken(&[f64::from_bits(self.bits)])
    }

    pub fn is_infinite(&self) -> bool {
        self.bits << 1 == 0x7ff << 53
    }

    pub fn is_signalling(&self) -> bool {
        !self.is_infinite() && self.bits >> 51 & 1 == 0
    }

    pub fn entry(&self) -> (usize, u32) {
        (self.list, self.number as u32)
    }
}

/// The file with those of its broken coordinates made whole that pass.
pub fn mended_file(file: &[u8], passes: &dyn Fn(&Coordinate) -> bool) -> Vec<u8> {
    let mut mended = file.to_vec();
    for (at, _) in coordinates(file).iter().filter(|(_, c)| c.is_broken() && passes(c)) {
        mended[*at..*at + 8].copy_from_slice(&1f64.to_le_bytes());
    }
    mended
}

/// The same with a mesh.
pub fn mend_mesh(mesh: &mut Mesh, passes: &dyn Fn(&Coordinate) -> bool) {
    for (list, numbers) in [&mut mesh.positions, &mut mesh.textures, &mut mesh.normals].into_iter().enumerate() {
        for (i, x) in numbers.iter_mut().enumerate() {
            let coordinate = Coordinate { list, number: i / WIDTHS[list], place: i % WIDTHS[list], bits: x.to_bits() };
            if coordinate.is_broken() && passes(&coordinate) {
                *x = 1.0;
            }
        }
    }
}

/// The whole records of a file in front of its end, whatever is wrong with them: where each body begins, its kind, and the body.
pub fn records(file: &[u8]) -> Vec<(usize, usize, &[u8])> {
    let (mut at, mut found) = (0, vec![]);
    while let Some((length, kind)) = header(file, at) {
        if kind == 0 || file.len() < at + 4 + length {
            break;
        }
        found.push((at + 4, kind, &file[at + 4..at + 4 + length]));
        at += 4 + length;
    }
    found
}

/// The length and the kind of the record at a place.
pub fn header(file: &[u8], at: usize) -> Option<(usize, usize)> {
    let bytes = file.get(at..at + 4)?;
    Some((u16::from_le_bytes([bytes[0], bytes[1]]) as usize, u16::from_le_bytes([bytes[2], bytes[3]]) as usize))
}

/// The coordinates of a file's entries, each with where it stands.
pub fn coordinates(file: &[u8]) -> Vec<(usize, Coordinate)> {
    let (mut numbers, mut found) = ([0; 3], vec![]);
    for (at, kind, body) in records(file) {
        if !is_entry(kind, body.len()) {
            continue;
        }
        let (list, number) = (kind - 1, numbers[kind - 1]);
        numbers[list] += 1;
        for (place, bytes) in body.chunks_exact(8).enumerate() {
            let bits = u64::from_le_bytes(bytes.try_into().unwrap());
            found.push((at + 8 * place, Coordinate { list, number, place, bits }));
        }
    }
    found
}

pub fn is_entry(kind: usize, length: usize) -> bool {
    (1..=3).contains(&kind) && length == 8 * WIDTHS[kind - 1]
}

/// The entries that corners use, by list and number.
pub fn used(corners: &[u32]) -> BTreeSet<(usize, u32)> {
    corners.iter().enumerate().map(|(i, index)| (i % WIDTH, *index)).filter(|(column, _)| *column < INDICES).collect()
}

pub fn used_in_file(file: &[u8]) -> BTreeSet<(usize, u32)> {
    let faces = records(file).into_iter().filter(|(_, kind, body)| (4..=6).contains(kind) && body.len() > 36);
    let corners = faces.flat_map(|(_, kind, body)| body[count_bytes(kind)..].chunks_exact(corner_bytes(kind)));
    let indices = corners.flat_map(|corner| corner.chunks_exact(4).take(INDICES).enumerate());
    indices.map(|(column, index)| (column, u32::from_le_bytes(index.try_into().unwrap()))).collect()
}
