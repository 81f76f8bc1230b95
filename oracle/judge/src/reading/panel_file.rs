//! 'The panel file': its reader, with the order in which it refuses; and the other kinds of face, of requests 6 and 11 of document 02.

use super::cleaning::grouped;
use super::door::is_broken;
use super::numbers::{indices_are_off, ATTRIBUTES, CORNERS, FACE};
use crate::mesh::{Corner, Mesh, INDICES, WIDTH};

/// A kind of face record: how many bytes its n has, how many numbers a corner, which numbers of corners a length may say, and the most corners
/// that are taken.
pub struct FaceKind {
    pub kind: u16,
    pub count: usize,
    pub numbers: usize,
    pub corners: std::ops::RangeInclusive<usize>,
    pub most: usize,
}

/// A byte n, and up to 32 corners. A length may say as many as a byte can hold.
pub const SMALL: FaceKind = FaceKind { kind: 4, count: 1, numbers: INDICES, corners: 0..=255, most: 32 };

/// Two bytes n, and 33 to 300 corners. A length may say more, up to what its own two bytes can hold, so that n over 300 gives 3: 5,461.
pub const LARGE: FaceKind = FaceKind { kind: 5, count: 2, numbers: INDICES, corners: 33..=5_461, most: FACE.end as usize - 1 };

/// Two bytes n, and 3 to 300 corners with their marks, of which one at least is not 0. A length may say more, as that of kind 5 may: 4,095.
pub const MARKED: FaceKind = FaceKind { kind: 6, count: 2, numbers: WIDTH, corners: 3..=4_095, most: FACE.end as usize - 1 };

impl FaceKind {
    /// The bytes of a corner.
    pub const fn corner(&self) -> usize {
        4 * self.numbers
    }
}

/// The mesh that a file holds, or the number with which it is refused. (Number 9, of the rooms, is asked before.)
pub fn read(file: &[u8]) -> Result<Mesh, u32> {
    let mut mesh = Mesh::default();
    let mut faces: Vec<Vec<Corner>> = vec![];
    let mut rest = file;
    loop {
        let (kind, body) = record(&mut rest)?;
        match kind {
            0 => break,
            1 => entry(&mut mesh.positions, 3, body)?,
            2 => entry(&mut mesh.textures, 2, body)?,
            3 => entry(&mut mesh.normals, 3, body)?,
            4 => face(&mut faces, &SMALL, body)?,
            5 => face(&mut faces, &LARGE, body)?,
            _ => face(&mut faces, &MARKED, body)?,
        }
    }
    if !rest.is_empty() {
        return Err(13);
    }
    let mesh = mesh.with_faces(&grouped(faces));
    if indices_are_off(&mesh) {
        return Err(5);
    }
    Ok(mesh)
}

/// The kind and the body of the next record: header cut 11, kind 12, length 12, body cut 11.
fn record<'a>(rest: &mut &'a [u8]) -> Result<(usize, &'a [u8]), u32> {
    if rest.len() < 4 {
        return Err(11);
    }
    let (header, after) = rest.split_at(4);
    let (length, kind) = (u16::from_le_bytes([header[0], header[1]]) as usize, u16::from_le_bytes([header[2], header[3]]));
    let right = match kind {
        0 => length == 0,
        1 | 3 => length == 24,
        2 => length == 16,
        4 => says_corners(&SMALL, length),
        5 => says_corners(&LARGE, length),
        6 => says_corners(&MARKED, length),
        _ => return Err(12),
    };
    if !right {
        return Err(12);
    }
    if after.len() < length {
        return Err(11);
    }
    let (body, after) = after.split_at(length);
    *rest = after;
    Ok((kind as usize, body))
}

/// Whether a length is right for a kind of face.
fn says_corners(face: &FaceKind, length: usize) -> bool {
    face.corners.clone().any(|m| length == face.count + face.corner() * m)
}

/// One more position, texture point or normal: not finite 14, limit 1.
fn entry(list: &mut Vec<f64>, width: usize, body: &[u8]) -> Result<(), u32> {
    let coordinates: Vec<f64> = body.chunks(8).map(|bytes| f64::from_le_bytes(bytes.try_into().unwrap())).collect();
    if is_broken(&coordinates) {
        return Err(14);
    }
    if list.len() == ATTRIBUTES * width {
        return Err(1);
    }
    list.extend(coordinates);
    Ok(())
}

/// One more face: n unlike m 12, kind 6 with all marks 0 12, n over the most of its kind gives 3, limit 1. Faces of 0, 1 or 2 corners are dropped and
/// don't count.
fn face(faces: &mut Vec<Vec<Corner>>, kind: &FaceKind, body: &[u8]) -> Result<(), u32> {
    let (count, corners) = body.split_at(kind.count);
    let n = count.iter().rev().fold(0, |n, byte| 256 * n + *byte as usize);
    if n != corners.len() / kind.corner() {
        return Err(12);
    }
    let corners: Vec<Corner> = corners.chunks(kind.corner()).map(corner).collect();
    if kind.kind == MARKED.kind && corners.iter().all(|corner| corner[INDICES] == 0) {
        return Err(12);
    }
    if n > kind.most {
        return Err(3);
    }
    if n < 3 {
        return Ok(());
    }
    if faces.iter().map(|face| face.len()).sum::<usize>() + n > CORNERS {
        return Err(1);
    }
    faces.push(corners);
    Ok(())
}

/// A corner by its bytes; where they hold no mark it has none.
fn corner(bytes: &[u8]) -> Corner {
    let mut corner = [0; WIDTH];
    let numbers = bytes.chunks(4).map(|four| u32::from_le_bytes(four.try_into().unwrap()));
    corner.iter_mut().zip(numbers).for_each(|(place, number)| *place = number);
    corner
}
