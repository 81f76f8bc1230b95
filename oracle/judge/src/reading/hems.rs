//! 'The hem sheet as a product of its own', request 13 of document 02: the list of hems, and the sheet that `hemsheet` prints.

use super::numbers::{house_number, mesh_number};
use super::{house, panel_file, panels};
use crate::mesh::{Hem, Mesh};
use std::collections::BTreeMap;

/// A coordinate in tenths of a millimetre is at most so far from 0, either way.
pub const FARTHEST: i32 = 1_000_000;

/// The most bytes of the program's input.
pub const FILE: usize = 65_536;

/// The stated room for the sheet's bytes: a line for each corner that a mesh may have, and 26 bytes for a line.
pub const ROOM: usize = 106_496;

/// How many bytes the count has, and a coordinate.
pub const COUNT: usize = 4;
pub const COORDINATE: usize = 4;

/// 18 where the triples don't match the number of positions, 19 where a coordinate is beyond the farthest, whether a corner uses it or not; else 0.
pub fn number(mesh: &Mesh, triples: &[i32]) -> u32 {
    if triples.len() != mesh.positions.len() {
        18
    } else if triples.iter().any(|coordinate| !(-FARTHEST..=FARTHEST).contains(coordinate)) {
        19
    } else {
        0
    }
}

/// The hems of an accepted question, in the order of the house wires.
pub fn list(mesh: &Mesh, triples: &[i32]) -> Vec<Hem> {
    let owners = panels_of_edges(mesh);
    let hem = |wire: &Vec<u32>| {
        let edges: Vec<[u32; 2]> = (0..wire.len()).map(|i| [wire[i], wire[(i + 1) % wire.len()]]).collect();
        let panel = owners[&edges[0]];
        assert!(edges.iter().all(|edge| owners[edge] == panel), "all edges of a hem lie in one panel");
        let length = edges.iter().map(|edge| whole_root(squared_distance(triples, *edge))).sum();
        Hem { panel, edges: edges.len() as u32, length }
    };
    house::house_wires(mesh).iter().map(hem).collect()
}

/// For each edge, in the direction in which a face uses it, the number of that face's panel; panels are numbered as they are listed, without the normals
/// setting. Where the verdict is Oriented or Closed one face uses it so, and once.
fn panels_of_edges(mesh: &Mesh) -> BTreeMap<[u32; 2], u32> {
    let faces = mesh.faces();
    let mut owners = BTreeMap::new();
    for (number, panel) in (0..).zip(panels::components(mesh, false)) {
        for face in panel.iter().map(|face| &faces[*face as usize]) {
            owners.extend((0..face.len()).map(|i| ([face[i][0], face[(i + 1) % face.len()][0]], number)));
        }
    }
    owners
}

/// The squared distance of an edge's ends.
fn squared_distance(triples: &[i32], edge: [u32; 2]) -> u128 {
    let [start, end] = edge.map(|position| &triples[3 * position as usize..][..3]);
    start.iter().zip(end).map(|(a, b)| (*a as i128 - *b as i128).unsigned_abs()).map(|apart| apart * apart).sum()
}

/// The greatest whole number whose square is at most this one. By Newton's steps from above: while the next one is lower it is taken.
pub fn whole_root(square: u128) -> u64 {
    let mut root = square;
    while root > 0 && square / root < root {
        root = (root + square / root) / 2;
    }
    assert!(root * root <= square && square < (root + 1) * (root + 1));
    root as u64
}

/// The whole output for the program's input.
pub fn sheet(file: &[u8]) -> String {
    match read(file) {
        Err(number) => format!("refused {number}\n"),
        Ok((mesh, triples)) => list(&mesh, &triples).iter().map(line).collect(),
    }
}

pub fn line(hem: &Hem) -> String {
    format!("hem {} {} {}\n", hem.panel, hem.edges, hem.length)
}

/// The mesh as it was drawn, and its triples, or the number with which the input is refused: 1; 11; what the reader says of so many bytes as the count
/// has; 18, for a triple that is cut too; 19; 10.
fn read(file: &[u8]) -> Result<(Mesh, Vec<i32>), u32> {
    if file.len() > FILE {
        return Err(1);
    }
    let (panel, behind) = parts(file).ok_or(11u32)?;
    let mesh = panel_file::read(panel)?;
    assert_eq!(mesh_number(&mesh), 0, "what is read is a mesh");
    if behind.len() % (3 * COORDINATE) != 0 {
        return Err(18);
    }
    let triples: Vec<i32> = behind.chunks(COORDINATE).map(|four| i32::from_le_bytes(four.try_into().unwrap())).collect();
    match [number(&mesh, &triples), house_number(&mesh)].into_iter().find(|number| *number != 0) {
        Some(number) => Err(number),
        None => Ok((mesh, triples)),
    }
}

/// So many bytes as the four-byte count says, and those behind them; none where either is not whole.
pub fn parts(file: &[u8]) -> Option<(&[u8], &[u8])> {
    let count = u32::from_le_bytes(file.get(..COUNT)?.try_into().unwrap()) as usize;
    let rest = &file[COUNT..];
    (count <= rest.len()).then(|| rest.split_at(count))
}
