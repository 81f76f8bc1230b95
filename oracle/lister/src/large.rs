//! Faces of more than 32 corners: files with kind 5 at each border of its lengths and of its count, what the writer makes of such faces, and rings of up to
//! 300 corners that are folded in several ways.

use crate::panel_files::{attribute, face, large_face, record, triangle, Bare, END};
use crate::record::File;
use crate::subjects::ring;
use judge::mesh::WIDTH;
use judge::{Mesh, MISSING};

/// So many corners, each the first entry of each list.
fn corners(count: usize) -> Vec<Bare> {
    vec![[0; 3]; count]
}

/// A face of kind 5 of so many corners, as it should be.
fn whole(count: usize) -> Vec<u8> {
    large_face(count as u16, &corners(count))
}

/// Panel files: an entry of each kind, one face or two, the end.
pub fn files() -> Vec<File> {
    let entries = [attribute(1, &[0.0; 3]), attribute(2, &[0.0; 2]), attribute(3, &[0.0; 3])].concat();
    let with = |records: &[u8]| File::plain([&entries[..], records, &END].concat());
    let cut = |records: &[u8]| File::plain([&entries[..], &records[..records.len() - 1]].concat());
    // Kind 5 from 33 to 300; below 33 its length is wrong, above 300 it is not. Kind 4 as before.
    let mut files: Vec<File> = [0, 3, 32, 33, 34, 255, 256, 299, 300, 301, 556].map(|count| with(&whole(count))).into();
    files.extend([32, 33, 255].map(|count| with(&face(&corners(count)))));
    // A length beside that of 33 corners and of 300; a kind beside it.
    files.extend([33, 300].into_iter().flat_map(|count| {
        let body = whole(count)[4..].to_vec();
        [body[..body.len() - 1].to_vec(), [&body[..], &[0]].concat()].map(|body| with(&record(5, &body)))
    }));
    files.extend([7, 256 + 5].map(|kind| with(&record(kind, &whole(33)[4..]))));
    // n unlike m: by one, in its high byte, in its low byte alone, over 300.
    files.extend(
        [(34, 33), (32, 33), (256 + 33, 33), (300 - 256, 300), (301, 300), (300, 301), (MISSING as u16, 33)]
            .map(|(n, m)| with(&large_face(n, &corners(m)))),
    );
    // Cut in the body: 11 before n is looked at, and before 3; and 12 before 11.
    files.extend([whole(33), whole(300), large_face(34, &corners(33)), whole(301), whole(32)].map(|face| cut(&face)));
    // Between others, of several sizes; an index that is off; bytes after the end.
    files.push(with(
        &[triangle(0, 0, 0), whole(33), face(&corners(4)), whole(34), face(&corners(32)), face(&corners(2))].concat(),
    ));
    files.push(with(&large_face(33, &[&corners(32)[..], &[[1, 0, 0]]].concat())));
    files.push(with(&[&whole(33)[..], &END].concat()));
    // 13 faces of 300 corners leave room for 196: 1 behind 3.
    let entries_and_end = [&entries[..], &END].concat();
    for rest in [vec![], whole(196), whole(197), whole(301), face(&corners(33))] {
        files.push(File { unit: whole(300), times: 13, rest: [rest, entries_and_end.clone()].concat() });
    }
    files
}

/// Meshes for the writer, and by how much the room is short of the file: both sides of the kinds, and a byte less than kind 5 takes.
pub fn meshes() -> Vec<(Mesh, usize)> {
    let of_sizes = |sizes: &[usize]| {
        let lists = Mesh { positions: vec![0.5; 3], textures: vec![0.25; 2], normals: vec![-0.0; 3], ..Mesh::default() };
        let corner = |i: usize| [0, [0, MISSING][i % 2], [MISSING, 0, 0][i % 3], 0];
        lists.with_faces(&sizes.iter().map(|size| (0..*size).map(corner).collect()).collect::<Vec<_>>())
    };
    let mut asked: Vec<(Mesh, usize)> = [32, 33, 34, 255, 256, 299, 300].map(|size| (of_sizes(&[size]), 0)).into();
    asked.push((of_sizes(&[3, 4, 33, 5, 32, 40]), 0));
    asked.extend([
        (of_sizes(&[32]), 1),
        (of_sizes(&[33]), 1),
        (of_sizes(&[300]), 1),
        (of_sizes(&[33, 34, 5]), 2),
        (of_sizes(&[301]), 0),
    ]);
    asked
}

/// One face of up to 300 corners, folded: all at one position, two by turns, petals, there and back, twice round, once, late.
pub fn folded() -> Vec<Mesh> {
    let ways: [(usize, fn(u32) -> u32); 8] = [
        (300, |_| 0),
        (300, |i| i % 2),
        (300, |i| if i % 3 == 0 { 0 } else { i }),
        (299, |i| i.min(298 - i)),
        (300, |i| i % 150),
        (300, |i| if i == 299 { 150 } else { i }),
        (300, |i| if i < 150 { i } else { 149 }),
        (33, |i| i * i % 33),
    ];
    let folded = |(corners, way): (usize, fn(u32) -> u32)| {
        let mut mesh = ring(corners);
        mesh.corners.iter_mut().step_by(WIDTH).for_each(|position| *position = way(*position));
        mesh
    };
    ways.map(folded).into()
}
