//! House wires at their smallest, by request 5 of document 02: where hems touch, where a face meets itself, and where wires begin.

use judge::mesh::Corner;
use judge::mesh::Verdict;
use judge::reading::{edges, house::house_wires, panels, sheet, writing};
use judge::{Mesh, MISSING};
use std::collections::BTreeSet;

/// A mesh by positions only, with as many positions as are named.
fn by_positions(faces: &[&[u32]]) -> Mesh {
    let count = faces.iter().flat_map(|face| face.iter()).max().map_or(0, |most| most + 1);
    let faces: Vec<Vec<Corner>> = faces.iter().map(|face| face.iter().map(|p| [*p, MISSING, MISSING, 0]).collect()).collect();
    Mesh { positions: (0..3 * count).map(|i| i as f64).collect(), ..Mesh::default() }.with_faces(&faces)
}

/// Each wire, its positions in words.
fn wires(faces: &[&[u32]]) -> Vec<String> {
    let mesh = by_positions(faces);
    assert!([Verdict::Oriented, Verdict::Closed].contains(&edges::verdict(&mesh)));
    let words = |wire: &Vec<u32>| wire.iter().map(u32::to_string).collect::<Vec<_>>().join(" ");
    house_wires(&mesh).iter().map(words).collect()
}

/// The hems as the sheet has them, after compaction.
fn hem_lines(faces: &[&[u32]]) -> Vec<String> {
    let printed = sheet::sheet(&writing::write(&by_positions(faces)));
    printed.lines().skip(3).map(str::to_string).collect()
}

#[test]
fn two_pieces_of_cloth_that_touch_keep_a_hem_each() {
    assert_eq!(wires(&[&[0, 1, 4], &[1, 2, 3]]), ["0 1 4", "1 2 3"]);
    assert_eq!(wires(&[&[0, 1, 2], &[2, 3, 4], &[0, 2, 5]]), ["0 1 2 5", "2 3 4"]);
    assert_eq!(wires(&[&[0, 1, 2], &[0, 3, 4], &[0, 5, 6]]), ["0 1 2", "0 3 4", "0 5 6"]);
    // Two fans around 9; the blades of each hang together.
    assert_eq!(wires(&[&[9, 0, 1], &[9, 1, 2], &[9, 3, 4], &[9, 4, 5]]), ["0 1 2 9", "3 4 5 9"]);
}

#[test]
fn two_openings_of_one_cloth_that_touch_are_one_hem() {
    assert_eq!(wires(&[&[0, 1, 2], &[0, 3, 4], &[2, 1, 4, 3]]), ["0 1 4 0 3 2"]);
    // Nine squares without the second and the fourth, which touch at 5.
    let squares = |k: u32| [k, k + 1, k + 5, k + 4];
    let cloth: Vec<[u32; 4]> = [0, 2, 5, 6, 8, 9, 10].iter().map(|k| squares(*k)).collect();
    let cloth: Vec<&[u32]> = cloth.iter().map(|square| &square[..]).collect();
    assert_eq!(wires(&cloth), ["0 1 5 4", "2 3 7 11 15 14 13 12 8 9 5 6"]);
}

/// A closed shape without some of its faces: openings apart, two that touch, and four that leave four pieces, which touch in points alone.
#[test]
fn openings_of_a_closed_shape() {
    let octahedron: [[u32; 3]; 8] = [[0, 2, 4], [2, 1, 4], [1, 3, 4], [3, 0, 4], [2, 0, 5], [1, 2, 5], [3, 1, 5], [0, 3, 5]];
    let without = |left_out: &[usize]| -> Vec<String> {
        let kept = (0..8).filter(|k| !left_out.contains(k)).map(|k| &octahedron[k][..]).collect::<Vec<_>>();
        wires(&kept)
    };
    assert_eq!(without(&[]), [""; 0]);
    assert_eq!(without(&[0]), ["0 4 2"]);
    assert_eq!(without(&[0, 2]), ["0 4 3 1 4 2"]);
    assert_eq!(without(&[0, 6]), ["0 4 2", "1 3 5"]);
    assert_eq!(without(&[0, 2, 5, 7]), ["0 4 3", "0 5 2", "1 4 2", "1 5 3"]);
}

/// An edge from a position to itself is a hem edge, and only that edge closes the wire: its first position may come again.
#[test]
fn edges_from_a_position_to_itself() {
    assert_eq!(wires(&[&[1, 2, 0, 0]]), ["0 0 1 2"]);
    assert_eq!(wires(&[&[0, 0, 1, 1]]), ["0", "1"]);
    assert_eq!(wires(&[&[0, 0, 1, 2], &[1, 0, 3, 3]]), ["0 0 3 3 1 2"]);
}

/// A face that uses an edge both ways is crossed to itself; one that only comes back to a position is not.
#[test]
fn faces_that_meet_themselves() {
    assert_eq!(wires(&[&[0, 1, 2, 1, 3]]), ["0 1 3"]);
    assert_eq!(wires(&[&[0, 1, 0, 2]]), [""; 0]);
    assert_eq!(wires(&[&[0, 1, 2, 0, 3, 4]]), ["0 1 2 0 3 4"]);
    assert_eq!(wires(&[&[0, 1, 2, 3, 1, 0, 4, 5]]), ["0 4 5", "1 2 3"]);
}

/// The smallest start, and of these the smallest end; it is not the smallest end of all that begins, nor the smallest start that a face begins with.
#[test]
fn where_wires_begin() {
    assert_eq!(wires(&[&[4, 0, 3], &[0, 1, 2]]), ["0 1 2", "0 3 4"]);
    assert_eq!(wires(&[&[5, 6, 7], &[4, 2, 3], &[1, 9, 8]]), ["1 9 8", "2 3 4", "5 6 7"]);
    assert_eq!(wires(&[&[1, 3, 2], &[4, 0, 5]]), ["0 5 4", "1 3 2"]);
}

/// The sheet of one cover has the same hems, under other numbers, in whatever order its faces come: by document 01's rule the second had the one
/// line `hem 0 1 2 3 4 2 5`.
#[test]
fn the_order_of_faces_changes_no_hem_on_the_sheet() {
    let faces: [&[u32]; 3] = [&[0, 1, 2], &[0, 2, 3], &[2, 4, 5]];
    assert_eq!(hem_lines(&faces), ["hem 0 1 2 3", "hem 2 4 5"]);
    assert_eq!(hem_lines(&[faces[0], faces[2], faces[1]]), ["hem 0 1 2 5", "hem 2 3 4"]);
}

/// Every two faces of 3 or 4 corners over four positions that are Oriented or Closed: each hem edge is used once, nothing else is, and the edges of
/// a wire are of faces of one panel.
#[test]
fn every_hem_edge_once_and_each_hem_in_one_panel() {
    let mut seen = 0;
    for index in 0..1u32 << 14 {
        let position = |place: u32| index >> (2 * place) & 3;
        let (one, other): (Vec<u32>, Vec<u32>) = ((0..3).map(position).collect(), (3..7).map(position).collect());
        let mesh = by_positions(&[&one, &other]);
        if ![Verdict::Oriented, Verdict::Closed].contains(&edges::verdict(&mesh)) {
            continue;
        }
        let in_one_panel = panels::components(&mesh, false).len() == 1;
        let mut used: Vec<[u32; 2]> = vec![];
        for wire in house_wires(&mesh) {
            let steps: Vec<[u32; 2]> = (0..wire.len()).map(|i| [wire[i], wire[(i + 1) % wire.len()]]).collect();
            let of = |face: &[u32]| {
                steps.iter().filter(|step| (0..face.len()).any(|i| **step == [face[i], face[(i + 1) % face.len()]])).count()
            };
            assert!(in_one_panel || of(&one) == 0 || of(&other) == 0, "{one:?} {other:?}");
            used.extend(steps);
        }
        assert_eq!(used.iter().collect::<BTreeSet<_>>().len(), used.len());
        used.sort_by_key(|[start, end]| [*start.min(end), *start.max(end)]);
        assert_eq!(used, edges::hem_edges(&mesh));
        seen += 1;
    }
    assert!(seen > 1_000);
}
