//! 'Give the panel file back', the first request of document 02: a mesh written as a panel file, and a panel file cleaned.

use super::numbers::{ATTRIBUTES, CORNERS, FACES};
use super::panel_file::{FaceKind, LARGE, MARKED, SMALL};
use super::{cleaning, panel_file};
use crate::mesh::{Corner, Mesh, INDICES, WIDTH};

/// The length of the longest file that a mesh can make: every list at its limit, and a mark in every face. (No face is longer in another kind than in
/// kind 6, by its header and by each of its corners.)
pub const LONGEST: usize = entries_length([ATTRIBUTES; 3]) + FACES * face_length(&MARKED, 0) + CORNERS * MARKED.corner() + 4;

/// Positions, texture points, normals, faces in their order, end.
pub fn write(mesh: &Mesh) -> Vec<u8> {
    let mut file = vec![];
    mesh.positions.chunks(3).for_each(|point| record(&mut file, 1, &coordinates(point)));
    mesh.textures.chunks(2).for_each(|point| record(&mut file, 2, &coordinates(point)));
    mesh.normals.chunks(3).for_each(|point| record(&mut file, 3, &coordinates(point)));
    mesh.faces().iter().for_each(|face| record(&mut file, kind_of(face).kind, &face_body(face)));
    record(&mut file, 0, &[]);
    file
}

/// The file of what is left of a file's mesh once folded faces are removed and then unused entries; or the number with which the file is
/// refused: 1 where it is longer than any that a mesh can make, then what the reader answers. (Number 9, of the room, is asked before.)
pub fn clean(file: &[u8]) -> Result<Vec<u8>, u32> {
    if file.len() > LONGEST {
        return Err(1);
    }
    Ok(write(&cleaning::cleaned(panel_file::read(file)?)))
}

/// How long the file of a mesh is: the room that the writer asks for. It goes by the counts, and by which faces have a mark. (Of a list that is no mesh,
/// of which nothing is written, the corners that are there.)
pub fn length(mesh: &Mesh) -> usize {
    let entries = [mesh.positions.len() / 3, mesh.textures.len() / 2, mesh.normals.len() / 3];
    let corners: Vec<Corner> = mesh.corners.chunks_exact(WIDTH).map(|corner| corner.try_into().unwrap()).collect();
    let (mut rest, mut faces) = (&corners[..], 0);
    for size in &mesh.sizes {
        let (face, after) = rest.split_at(rest.len().min(*size as usize));
        (rest, faces) = (after, faces + face_length(&kind_of(face), face.len()));
    }
    entries_length(entries) + faces + 4
}

/// A header is four bytes.
const fn entries_length([positions, textures, normals]: [usize; 3]) -> usize {
    (4 + 24) * positions + (4 + 16) * textures + (4 + 24) * normals
}

const fn face_length(kind: &FaceKind, corners: usize) -> usize {
    4 + kind.count + kind.corner() * corners
}

/// The writer always picks the kind: 6 where there is a mark, else by the size, up to 32 corners as before.
fn kind_of(face: &[Corner]) -> FaceKind {
    if face.iter().any(|corner| corner[INDICES] != 0) {
        MARKED
    } else if face.len() <= SMALL.most {
        SMALL
    } else {
        LARGE
    }
}

/// Two-byte length of the body, two-byte kind, body.
fn record(file: &mut Vec<u8>, kind: u16, body: &[u8]) {
    file.extend((body.len() as u16).to_le_bytes());
    file.extend(kind.to_le_bytes());
    file.extend(body);
}

fn coordinates(point: &[f64]) -> Vec<u8> {
    point.iter().flat_map(|x| x.to_le_bytes()).collect()
}

/// A byte n, or two, then n corners, in kind 6 with their marks.
fn face_body(face: &[Corner]) -> Vec<u8> {
    let kind = kind_of(face);
    let count = face.len().to_le_bytes().into_iter().take(kind.count);
    let numbers = face.iter().flat_map(|corner| &corner[..kind.numbers]);
    count.chain(numbers.flat_map(|number| number.to_le_bytes())).collect()
}
