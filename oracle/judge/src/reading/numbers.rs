//! 'The mesh' and 'Numbers returned'.

use super::{door, edges, hems, in_place, panel_file, scan, smoothing, writing};
use crate::calls::{Call, Question};
use crate::mesh::{Mesh, Verdict, MISSING, WIDTH};
use std::ops::Range;

/// How many numbers the table has with the rows of document 02, from 0 on.
pub const NUMBERS: usize = 20;
/// The most positions, texture points and normals, each.
pub const ATTRIBUTES: usize = 2_048;
/// The most corners.
pub const CORNERS: usize = 4_096;
/// The most faces.
pub const FACES: usize = 1_365;
/// From the fewest corners of a face to one past the most; the most are those of request 6 of document 02.
pub const FACE: Range<u32> = 3..301;

/// The number that the whole call returns.
pub fn number(call: Call, question: &Question) -> u32 {
    let (mesh, rooms) = (&question.mesh, short_room(call, question));
    match call {
        Call::Face => 0,
        Call::MeshNumber | Call::ShellCondition => mesh_number(mesh),
        Call::PutTogetherSameAttrs | Call::PutTogetherByCell => {
            first(&[mesh_number(mesh), merging_number(mesh, question.tolerance), rooms])
        }
        Call::HouseWires => match first(&[mesh_number(mesh), rooms]) {
            0 => house_number(mesh),
            number => number,
        },
        // Document 02: after 5 first 18 and 19, then 9 and 10.
        Call::ListHems => match first(&[mesh_number(mesh), hems::number(mesh, &question.triples), rooms]) {
            0 => house_number(mesh),
            number => number,
        },
        Call::WritePanel => first(&[mesh_number(mesh), door::number(mesh), rooms]),
        Call::ReadPanel => first(&[rooms, panel_file::read(&question.file).err().unwrap_or(0)]),
        // What is left is a mesh, its coordinates are finite, and its file fits: nothing is refused after the reading.
        Call::CleanPanel => first(&[rooms, writing::clean(&question.file).err().unwrap_or(0)]),
        // A refused file has a sheet of its own, which says so: only its room can be refused.
        Call::Sheet | Call::ScanSheet | Call::HemSheet => rooms,
        Call::ReadScan => first(&[rooms, scan::read(&question.file).err().unwrap_or(0)]),
        Call::Push => first(&[faces_number(mesh), rooms]),
        Call::LoopSubdivision => match mesh_number(mesh) {
            0 => first(&[smoothing::number(mesh, question.cosines()), rooms]),
            number => number,
        },
        _ => first(&[mesh_number(mesh), rooms]),
    }
}

/// The first number that is not 0.
fn first(numbers: &[u32]) -> u32 {
    numbers.iter().copied().find(|number| *number != 0).unwrap_or(0)
}

/// Numbers 0 to 5.
pub fn mesh_number(mesh: &Mesh) -> u32 {
    let over = mesh.positions.len() > 3 * ATTRIBUTES
        || mesh.textures.len() > 2 * ATTRIBUTES
        || mesh.normals.len() > 3 * ATTRIBUTES
        || mesh.corners.len() > WIDTH * CORNERS
        || mesh.sizes.len() > FACES;
    if over {
        return 1;
    }
    let ragged = mesh.positions.len() % 3 != 0
        || mesh.textures.len() % 2 != 0
        || mesh.normals.len() % 3 != 0
        || mesh.corners.len() % WIDTH != 0;
    if ragged || mesh.sizes.iter().map(|size| *size as u64).sum::<u64>() != mesh.corner_count() as u64 {
        return 2;
    }
    if mesh.sizes.iter().any(|size| !FACE.contains(size)) {
        return 3;
    }
    let group = |size: u32| size.min(5);
    if mesh.sizes.windows(2).any(|pair| group(pair[0]) > group(pair[1])) {
        return 4;
    }
    if indices_are_off(mesh) {
        return 5;
    }
    0
}

/// 10 where the verdict is neither Oriented nor Closed, else 0. The mesh is accepted.
pub fn house_number(mesh: &Mesh) -> u32 {
    if [Verdict::Irregular, Verdict::Regular].contains(&edges::verdict(mesh)) {
        10
    } else {
        0
    }
}

/// Numbers 0 to 3 of faces in any order: those of fewer than three corners are dropped, and no attribute list is given.
pub fn faces_number(mesh: &Mesh) -> u32 {
    if mesh.corners.len() > WIDTH * CORNERS || mesh.sizes.len() > FACES {
        return 1;
    }
    if WIDTH as u64 * mesh.sizes.iter().map(|size| *size as u64).sum::<u64>() != mesh.corners.len() as u64 {
        return 2;
    }
    if mesh.sizes.iter().any(|size| *size >= FACE.end) {
        return 3;
    }
    0
}

/// A position index, or a texture or normal index that isn't missing, is not below its list's count.
pub fn indices_are_off(mesh: &Mesh) -> bool {
    let below = |index: u32, count: usize| (index as usize) < count;
    mesh.corners.chunks(WIDTH).any(|corner| {
        !below(corner[0], mesh.positions.len() / 3)
            || corner[1] != MISSING && !below(corner[1], mesh.textures.len() / 2)
            || corner[2] != MISSING && !below(corner[2], mesh.normals.len() / 3)
    })
}

/// Numbers 6, 7 and 8; 0 where none of them is given.
pub fn merging_number(mesh: &Mesh, tolerance: f64) -> u32 {
    if !(2f64.powi(-30) <= tolerance && tolerance <= 1.0) {
        return 6;
    }
    let all = || mesh.positions.iter().chain(&mesh.textures).chain(&mesh.normals);
    if all().any(is_boundless) {
        return 7;
    }
    let raw = || mesh.textures.iter().chain(&mesh.normals);
    if raw().any(|coordinate| (coordinate / tolerance).abs() >= 2f64.powi(53)) {
        return 8;
    }
    0
}

/// A coordinate is not finite, or its magnitude is above 2^60.
pub fn is_boundless(coordinate: &f64) -> bool {
    !coordinate.is_finite() || coordinate.abs() > 2f64.powi(60)
}

/// 9 where a lent result list is shorter than its stated room, else 0.
fn short_room(call: Call, question: &Question) -> u32 {
    let stated = stated_rooms(call, &question.mesh);
    if stated.iter().zip(&question.rooms).any(|(stated, lent)| lent < stated) {
        9
    } else {
        0
    }
}

/// The stated room of each lent result list, in the order of the C interface.
pub fn stated_rooms(call: Call, mesh: &Mesh) -> Vec<usize> {
    let corners = mesh.corner_count();
    match call {
        Call::MeshNumber | Call::Face | Call::ShellCondition => vec![],
        Call::RemoveUnusedAttrs => vec![mesh.corners.len(), mesh.positions.len(), mesh.textures.len(), mesh.normals.len()],
        // Document 02: one entry for each of the longest list. The mesh's own lists are as long as they are.
        Call::CompactInPlace => vec![in_place::longest(mesh)],
        Call::RemoveDegenerateFaces => vec![mesh.corners.len(), corners / 3, corners / 3],
        Call::PutTogetherSameAttrs | Call::PutTogetherByCell => vec![mesh.corners.len()],
        // Document 01 names no call for `push`: as for compaction, the input's own lengths.
        Call::Push => vec![mesh.corners.len(), mesh.sizes.len()],
        // Document 01 names no call for the hem edges: its starts and its ends have room as wires have.
        Call::HemEdges => vec![corners, corners],
        Call::ExtractBoundaries => vec![2 * corners, corners],
        Call::HouseWires | Call::Components => vec![corners, corners],
        // Document 02: one entry per corner in each list.
        Call::ListHems => vec![corners, corners, corners],
        // Document 02: a scan asks for room at the full limits too, in all five lists.
        Call::ReadPanel | Call::ReadScan => vec![3 * ATTRIBUTES, 2 * ATTRIBUTES, 3 * ATTRIBUTES, WIDTH * CORNERS, FACES],
        // Document 02: the whole file. The cleaner's is not known beforehand: as for the reader, the full limits.
        Call::WritePanel => vec![writing::length(mesh)],
        Call::CleanPanel => vec![writing::LONGEST],
        Call::Sheet | Call::ScanSheet => vec![super::sheet::ROOM],
        Call::HemSheet => vec![hems::ROOM],
        // Document 02 names no room for smoothing: a position more for each corner at most, since an edge begins at each corner; four faces for one.
        Call::LoopSubdivision => vec![mesh.positions.len() + 3 * corners, 4 * mesh.corners.len(), 4 * mesh.sizes.len()],
    }
}

/// Where the corners of face k stand in the flat list; empty where k is no face or the lists earn 1 to 4.
pub fn part_of_face(mesh: &Mesh, k: usize) -> Range<usize> {
    if (1..=4).contains(&mesh_number(mesh)) || k >= mesh.sizes.len() {
        return 0..0;
    }
    let corners_of = |sizes: &[u32]| WIDTH * sizes.iter().sum::<u32>() as usize;
    corners_of(&mesh.sizes[..k])..corners_of(&mesh.sizes[..k + 1])
}
