//! Marks on corners: marked meshes, put to every call; files with kind 6 at each border of its lengths and of its count, and with each refusal; what the
//! writer makes of marked faces; and large rings, folded, whose corners all have marks of their own.

use crate::large;
use crate::panel_files::{attribute, face, large_face, marked_face, record, triangle, END};
use crate::record::File;
use crate::subjects::{examples, ring};
use judge::mesh::{Corner, INDICES, WIDTH};
use judge::{Mesh, MISSING};

/// The same mesh, each corner with the mark that its place among all corners has.
fn marked(mut mesh: Mesh, mark: impl Fn(usize) -> u32) -> Mesh {
    mesh.corners.chunks_mut(WIDTH).enumerate().for_each(|(place, corner)| corner[INDICES] = mark(place));
    mesh
}

/// The examples in which a corner goes, moves or is shared, with a mark of its own on every corner; one of them with few marks, with equal ones, and with
/// marks that would be no index.
pub fn meshes() -> Vec<Mesh> {
    let all = examples();
    let mut meshes: Vec<Mesh> =
        [1, 3, 5, 6, 7, 8, 9, 11, 15, 16, 17].map(|i| marked(all[i].clone(), |place| place as u32 + 1)).into();
    let ways: [fn(usize) -> u32; 4] =
        [|place| (place == 1) as u32, |_| 7, |place| MISSING - place as u32 % 2, |place| [0, 0x8000_0000][place % 2]];
    meshes.extend(ways.map(|way| marked(all[17].clone(), way)));
    meshes.extend(ways.map(|way| marked(all[16].clone(), way)));
    meshes
}

/// Rings of up to 300 corners, folded, each corner told by its mark.
pub fn folded() -> Vec<Mesh> {
    large::folded().into_iter().map(|mesh| marked(mesh, |place| place as u32 + 1)).collect()
}

/// So many corners, each the first entry of each list, the one at a place with a mark.
fn corners(count: usize, at: usize) -> Vec<Corner> {
    (0..count).map(|place| [0, 0, 0, (place == at) as u32]).collect()
}

/// A face of kind 6 of so many corners, as it should be: its last corner has a mark.
fn whole(count: usize) -> Vec<u8> {
    marked_face(count as u16, &corners(count, count - 1))
}

/// The same with all marks 0.
fn unmarked(count: usize) -> Vec<u8> {
    marked_face(count as u16, &corners(count, count))
}

/// Panel files: an entry of each kind, one face or two, the end.
pub fn files() -> Vec<File> {
    let entries = [attribute(1, &[0.0; 3]), attribute(2, &[0.0; 2]), attribute(3, &[0.0; 3])].concat();
    let with = |records: &[u8]| File::plain([&entries[..], records, &END].concat());
    let cut = |records: &[u8], less: usize| File::plain([&entries[..], &records[..records.len() - less]].concat());
    // Kind 6 from 3 to 300; below 3 its length is wrong, above 300 it is not, up to what two bytes can say.
    let mut files: Vec<File> = [1, 2, 3, 4, 32, 33, 255, 256, 299, 300, 301, 556].map(|count| with(&whole(count))).into();
    files.push(with(&marked_face(0, &[])));
    files.push(with(&whole(4_095)));
    // The mark in the first corner, in one between, in each byte of it; in several; with no index.
    files.extend([0, 1].map(|at| with(&marked_face(3, &corners(3, at)))));
    files.extend(
        [1, 0x100, 0x1_0000, 0x100_0000, MISSING].map(|mark| with(&marked_face(3, &[[0, 0, 0, 0], [0, 0, 0, mark], [0; 4]]))),
    );
    files.push(with(&marked_face(4, &[[0, MISSING, MISSING, 1], [0, MISSING, 0, 2], [0, 0, MISSING, 0], [0, 0, 0, 4]])));
    // All marks 0: 12, after n unlike m, and before 3.
    files.extend([3, 32, 33, 300, 301].map(|count| with(&unmarked(count))));
    // A length beside that of 3 corners and of 300; a kind beside it.
    files.extend([3, 300].into_iter().flat_map(|count| {
        let body = whole(count)[4..].to_vec();
        [body[..body.len() - 1].to_vec(), [&body[..], &[0]].concat()].map(|body| with(&record(6, &body)))
    }));
    files.extend([5, 7, 256 + 6].map(|kind| with(&record(kind, &whole(33)[4..]))));
    // n unlike m: by one, in its high byte, in its low byte alone, over 300, also with all marks 0.
    files.extend(
        [(4, 3), (2, 3), (256 + 3, 3), (300 - 256, 300), (301, 300), (300, 301), (MISSING as u16, 3)]
            .map(|(n, m)| with(&marked_face(n, &corners(m, 0)))),
    );
    files.push(with(&marked_face(301, &corners(300, 300))));
    // Cut in the body: 11 before n is looked at, before the marks are, and before 3; and 12 before 11.
    files.extend(
        [whole(3), whole(300), marked_face(4, &corners(3, 0)), unmarked(3), whole(301), whole(2)].map(|face| cut(&face, 1)),
    );
    files.extend([4, 16, 48].map(|less| cut(&whole(3), less)));
    // Between the other kinds, of several sizes; an index that is off, beside a mark; bytes after the end.
    let plain = |count: usize| vec![[0; 3]; count];
    files.push(with(
        &[triangle(0, 0, 0), whole(5), face(&plain(4)), whole(3), large_face(33, &plain(33)), whole(4), face(&plain(2))].concat(),
    ));
    files
        .extend([[1, 0, 0, 1], [0, 1, 0, 1], [0, 0, 1, 1], [MISSING, 0, 0, 1]].map(|corner| with(&marked_face(3, &[corner; 3]))));
    files.push(with(&[&whole(3)[..], &END].concat()));
    // Folded: the cleaner leaves a face whose mark is gone, and which is of kind 4 again, and one that keeps its marks.
    let positions = [[0.0; 3], [1.0, 0.0, 0.0], [0.0, 1.0, 0.0]].map(|point| attribute(1, &point)).concat();
    let quadrangle = |marks: [u32; 4]| {
        let corner = |i: usize| [[0, 0, 1, 2][i], MISSING, MISSING, marks[i]];
        marked_face(4, &[corner(0), corner(1), corner(2), corner(3)])
    };
    let folded = [[0, 9, 0, 0], [8, 9, 0, 0], [0, 9, 0, 7]].map(quadrangle).concat();
    files.push(File::plain([&positions[..], &folded, &END].concat()));
    // 13 faces of 300 corners leave room for 196: 1 behind 12 and behind 3.
    let entries_and_end = [&entries[..], &END].concat();
    for rest in [vec![], whole(196), whole(197), unmarked(197), whole(301)] {
        files.push(File { unit: whole(300), times: 13, rest: [rest, entries_and_end.clone()].concat() });
    }
    files
}

/// Meshes for the writer, and by how much the room is short of the file: each kind at both sides of what it is for, marks in the first corner, in the last and
/// in none, and rooms a byte short, and as short as the marks are long.
pub fn written() -> Vec<(Mesh, usize)> {
    let sized = |size: usize, at: usize| marked(ring(size), |place| (place == at) as u32);
    let mut asked: Vec<(Mesh, usize)> =
        [3, 4, 32, 33, 150].iter().flat_map(|size| [sized(*size, 0), sized(*size, size - 1)]).map(|mesh| (mesh, 0)).collect();
    let several = |way: fn(usize) -> u32| {
        let faces: Vec<Vec<Corner>> = [3, 3, 4, 5, 33].iter().map(|size| vec![[0, MISSING, MISSING, 0]; *size]).collect();
        marked(Mesh { positions: vec![0.5; 3], ..Mesh::default() }.with_faces(&faces), way)
    };
    let ways: [fn(usize) -> u32; 5] = [
        |_| 0,
        |place| (place == 3) as u32,
        |place| (place == 47) as u32,
        |place| MISSING - place as u32,
        |place| (place % 2) as u32,
    ];
    asked.extend(ways.map(|way| (several(way), 0)));
    asked.extend([(sized(3, 0), 1), (sized(3, 0), 12), (sized(33, 32), 1), (several(|_| 1), 1), (several(|_| 1), 4 * 48)]);
    asked
}
