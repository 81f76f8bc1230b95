//! 'Read the scanner's own file', the eighth request of document 02: a binary STL file read into a mesh, and the sheet of a scan.

use super::numbers::{ATTRIBUTES, FACES};
use super::{cleaning, sheet};
use crate::mesh::{Mesh, MISSING};
use std::collections::BTreeMap;

/// 80 bytes of header.
pub const HEADER: usize = 80;
/// The header and a four-byte count.
pub const FRONT: usize = HEADER + 4;
/// A triangle: a normal and three points, three f32 each, and two bytes.
pub const TRIANGLE: usize = 12 + 3 * 12 + 2;
/// The longest file that is not refused for its length.
pub const LONGEST: usize = FRONT + TRIANGLE * FACES;

/// A point by the bits of its three f32.
pub type Point = [u32; 3];

/// The mesh of a scan, or the number with which it is refused. (Number 9, of the rooms, is asked before.)
pub fn read(file: &[u8]) -> Result<Mesh, u32> {
    let triangles = triangles(file)?;
    let points: Vec<Point> = triangles.into_iter().flatten().collect();
    if points.iter().flatten().any(|bits| !f32::from_bits(*bits).is_finite()) {
        return Err(14);
    }
    let mut numbers: BTreeMap<Point, u32> = BTreeMap::new();
    let mut mesh = Mesh::default();
    for point in points.into_iter().map(|point| point.map(unsigned_zero)) {
        let next = numbers.len() as u32;
        let number = *numbers.entry(point).or_insert(next);
        if number == next {
            mesh.positions.extend(point.map(|bits| f64::from(f32::from_bits(bits))));
        }
        mesh.corners.extend([number, MISSING, MISSING, 0]);
    }
    if numbers.len() > ATTRIBUTES {
        return Err(1);
    }
    mesh.sizes = vec![3; mesh.corner_count() / 3];
    Ok(mesh)
}

/// The three points of each triangle, as they stand in the file: fewer than 84 bytes 11, a count over 1,365 1, the length below what the
/// count asks 11 or above it 13.
pub fn triangles(file: &[u8]) -> Result<Vec<[Point; 3]>, u32> {
    if file.len() < FRONT {
        return Err(11);
    }
    let count = number(&file[HEADER..FRONT]);
    if count as usize > FACES {
        return Err(1);
    }
    let asked = FRONT + TRIANGLE * count as usize;
    if file.len() < asked {
        return Err(11);
    }
    if file.len() > asked {
        return Err(13);
    }
    Ok(file[FRONT..].chunks(TRIANGLE).map(points_of).collect())
}

/// The points of one triangle: its normal stands before them, two bytes behind them.
fn points_of(triangle: &[u8]) -> [Point; 3] {
    let at = |place: usize| number(&triangle[4 * place..4 * place + 4]);
    let point = |k: usize| [at(3 * k), at(3 * k + 1), at(3 * k + 2)];
    [point(1), point(2), point(3)]
}

fn number(four: &[u8]) -> u32 {
    u32::from_le_bytes(four.try_into().unwrap())
}

/// A negative zero is read as zero.
fn unsigned_zero(bits: u32) -> u32 {
    if bits == 0x8000_0000 {
        0
    } else {
        bits
    }
}

/// The whole output of `scansheet` for a file, however long it is.
pub fn sheet(file: &[u8]) -> String {
    match read(file) {
        Err(number) => format!("refused {number}\n"),
        Ok(mesh) => sheet::sheet_of(&cleaning::cleaned(mesh)),
    }
}
