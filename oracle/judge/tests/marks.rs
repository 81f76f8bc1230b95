//! 'Seam marks on corners', the eleventh request of document 02: the fourth number of a corner through every call, and kind 6 of the panel file.

use judge::mesh::{Corner, INDICES, WIDTH};
use judge::reading::numbers::stated_rooms;
use judge::reading::{self, numbers, panel_file, sheet, writing};
use judge::{rust, Answer, Call, Mesh, Numbers, Question, MISSING};

/// Faces by positions and marks.
fn marked(faces: &[&[(u32, u32)]]) -> Mesh {
    let count = faces.iter().flat_map(|face| face.iter()).map(|(position, _)| position + 1).max().unwrap_or(0);
    let corner = |(position, mark): &(u32, u32)| -> Corner { [*position, MISSING, MISSING, *mark] };
    let faces: Vec<Vec<Corner>> = faces.iter().map(|face| face.iter().map(corner).collect()).collect();
    Mesh { positions: (0..3 * count).map(|i| i as f64).collect(), ..Mesh::default() }.with_faces(&faces)
}

/// What all judges that answer say to a call with exact rooms.
fn judged(call: Call, mesh: &Mesh) -> Answer {
    let [ones, twos] = rust::cosines();
    let question =
        Question { mesh: mesh.clone(), tolerance: 1.0, ones, twos, rooms: stated_rooms(call, mesh), ..Question::default() };
    let answer = reading::answer(call, &question);
    assert_eq!(answer.number, 0);
    for other in [rust::untouched::answer(call, &question), rust::ascending::answer(call, &question)].into_iter().flatten() {
        assert_eq!(format!("{answer:?}"), format!("{other:?}"));
    }
    answer
}

/// The positions and the marks of a list of corners.
fn told(answer: &Answer, list: usize) -> Vec<(u32, u32)> {
    match &answer.lists[list] {
        Numbers::Words(corners) => corners.chunks(WIDTH).map(|corner| (corner[0], corner[INDICES])).collect(),
        _ => panic!("no corners"),
    }
}

#[test]
fn a_quadrangle_that_becomes_a_triangle_keeps_the_marks_of_its_corners() {
    let unfolded = |quadrangle: [(u32, u32); 4]| told(&judged(Call::RemoveDegenerateFaces, &marked(&[&quadrangle])), 0);
    // q0 = q1: (q0, q2, q3), with the mark of q0 and not that of q1.
    assert_eq!(unfolded([(0, 5), (0, 6), (1, 7), (2, 8)]), [(0, 5), (1, 7), (2, 8)]);
    assert_eq!(unfolded([(0, 5), (1, 6), (1, 7), (2, 8)]), [(0, 5), (1, 7), (2, 8)]);
    assert_eq!(unfolded([(0, 5), (1, 6), (2, 7), (2, 8)]), [(0, 5), (1, 6), (2, 7)]);
    assert_eq!(unfolded([(0, 5), (1, 6), (2, 7), (0, 8)]), [(0, 5), (1, 6), (2, 7)]);
    // Equal positions with other marks are equal; equal marks with other positions are nothing.
    assert_eq!(unfolded([(0, 5), (1, 6), (0, 7), (2, 8)]), []);
    assert_eq!(unfolded([(0, 5), (1, 5), (2, 5), (3, 5)]), [(0, 5), (1, 5), (2, 5), (3, 5)]);
    assert_eq!(told(&judged(Call::RemoveDegenerateFaces, &marked(&[&[(0, 5), (0, 6), (1, 7)]])), 0), []);
}

/// Example 7: the second ring begins with corner j, with its own mark; and example 8.
#[test]
fn each_ring_has_the_marks_of_its_own_corners() {
    let unfolded = |ring: &[(u32, u32)]| told(&judged(Call::RemoveDegenerateFaces, &marked(&[ring])), 0);
    assert_eq!(unfolded(&[(0, 10), (1, 11), (2, 12), (1, 13), (3, 14)]), [(1, 13), (3, 14), (0, 10)]);
    let six = [(0, 10), (1, 11), (2, 12), (0, 13), (3, 14), (4, 15)];
    assert_eq!(unfolded(&six), six);
}

#[test]
fn marks_move_with_their_corners() {
    let mesh = marked(&[&[(5, 1), (2, MISSING), (4, 3)], &[(4, 0), (2, 9), (0, 8)]]);
    assert_eq!(told(&judged(Call::RemoveUnusedAttrs, &mesh), 0), [(0, 1), (1, MISSING), (2, 3), (2, 0), (1, 9), (3, 8)]);
    let merged = told(&judged(Call::PutTogetherSameAttrs, &mesh), 0);
    assert_eq!(merged.iter().map(|corner| corner.1).collect::<Vec<_>>(), mesh.marks().collect::<Vec<_>>());
    let any_order = mesh.with_faces(&[vec![[0, 0, 0, 7]; 5], vec![[1, 1, 1, 8]; 2], vec![[2, 2, 2, 9]; 3]]);
    assert_eq!(told(&judged(Call::Push, &any_order), 0), [[(2, 9); 3].to_vec(), vec![(0, 7); 5]].concat());
    let two = marked(&[&[(0, 1), (1, 2), (2, 3)], &[(2, 4), (1, 5), (3, 6)]]);
    let smoothed = told(&judged(Call::LoopSubdivision, &two), 1);
    assert!(smoothed.iter().all(|(position, mark)| (*position < 4) == (*mark != 0)));
    assert_eq!(smoothed.iter().map(|corner| corner.1).filter(|mark| *mark != 0).collect::<Vec<_>>(), [1, 3, 2, 4, 6, 5]);
}

/// Two meshes that differ in marks alone have the same verdict, hems, wires, panels, and earn the same numbers.
#[test]
fn no_rule_tests_a_mark() {
    let bare = marked(&[&[(0, 0), (1, 0), (2, 0)], &[(2, 0), (1, 0), (3, 0)], &[(3, 0), (1, 0), (3, 0), (0, 0)]]);
    for mark in [1, 2, 2_047, 2_048, MISSING - 1, MISSING] {
        let mut other = bare.clone();
        other.corners.iter_mut().skip(INDICES).step_by(WIDTH).for_each(|place| *place = mark);
        assert_eq!(numbers::mesh_number(&other), 0);
        for call in [Call::ShellCondition, Call::HemEdges, Call::ExtractBoundaries, Call::Components] {
            assert_eq!(format!("{:?}", judged(call, &bare)), format!("{:?}", judged(call, &other)), "{}", call.name());
        }
        let sheets = [&bare, &other].map(|mesh| sheet::sheet(&writing::write(mesh)));
        assert_eq!(sheets[0], sheets[1]);
    }
}

/// The record of kind 6 with this n, and m corners at the first position with these marks.
fn face(n: usize, marks: &[u32]) -> Vec<u8> {
    let corners = marks.iter().flat_map(|mark| [0, MISSING, MISSING, *mark]).flat_map(u32::to_le_bytes);
    record(6, &(n as u16).to_le_bytes().into_iter().chain(corners).collect::<Vec<u8>>())
}

/// The first, the last or another corner marked.
fn one_mark(n: usize, at: usize) -> Vec<u8> {
    face(n, &(0..n).map(|i| (i == at) as u32).collect::<Vec<u32>>())
}

fn record(kind: u16, body: &[u8]) -> Vec<u8> {
    [&(body.len() as u16).to_le_bytes(), &kind.to_le_bytes(), body].concat()
}

/// What the reader answers to a position, these records and the end.
fn number(records: &[u8]) -> u32 {
    panel_file::read(&[&record(1, &[0; 24])[..], records, &[0; 4]].concat()).err().unwrap_or(0)
}

#[test]
fn kind_6_has_3_to_300_corners() {
    for n in 0..=2 {
        assert_eq!([number(&one_mark(n, 0)), number(&face(n, &vec![0; n]))], [12, 12], "{n}");
    }
    for n in 3..=300 {
        assert_eq!([number(&one_mark(n, 0)), number(&one_mark(n, n - 1)), number(&face(n, &vec![0; n]))], [0, 0, 12], "{n}");
    }
    for n in [301, 302, 556, 4_094, 4_095] {
        assert_eq!([number(&one_mark(n, 0)), number(&one_mark(n, n - 1))], [3, 3], "{n}");
    }
    for off in (0..16).filter(|off| *off != 2) {
        for m in [3, 32, 33, 300, 301, 4_094] {
            assert_eq!(number(&record(6, &vec![1; 16 * m + off])), 12, "{m} {off}");
        }
    }
    assert_eq!(number(&record(7, &one_mark(3, 0)[4..])), 12);
}

/// Kind 12, length 12, body cut 11, n unlike m 12, all marks 0 12, n over 300 3, limit 1.
#[test]
fn kind_6_is_refused_in_order() {
    let cut = |record: Vec<u8>, less: usize| panel_file::read(&record[..record.len() - less]).err();
    assert_eq!(
        [cut(one_mark(2, 0), 1), cut(one_mark(3, 0), 1), cut(face(3, &[0; 3]), 1), cut(one_mark(301, 0), 1)],
        [12, 11, 11, 11].map(Some)
    );
    assert_eq!([cut(face(4, &[1; 3]), 1), cut(one_mark(4_095, 0), 16)], [11, 11].map(Some));
    for (n, m) in [(2, 3), (4, 3), (301, 300), (300, 301), (3 + 256, 3), (44, 300), (0, 256), (0xffff, 4_095)] {
        assert_eq!(number(&face(n, &vec![1; m])), 12, "{n} {m}");
    }
    // All marks 0 before n over 300.
    assert_eq!([number(&face(301, &[0; 301])), number(&face(4_095, &[0; 4_095]))], [12, 12]);
    // 13 faces of 300 leave room for 196 corners.
    let full = one_mark(300, 7).repeat(13);
    assert_eq!(number(&[&full[..], &one_mark(196, 0)].concat()), 0);
    assert_eq!(number(&[&full[..], &one_mark(197, 0)].concat()), 1);
    assert_eq!(number(&[&full[..], &face(197, &[0; 197])].concat()), 12);
    assert_eq!(number(&[&full[..], &one_mark(301, 0)].concat()), 3);
    assert_eq!(panel_file::read(&[&one_mark(3, 0)[..], &[0; 4]].concat()).err(), Some(5));
    assert_eq!(panel_file::read(&[&one_mark(3, 0)[..], &[0; 5]].concat()).err(), Some(13));
}

/// Kinds 4, 5 and 6 in one file, each face of the kind that its marks and its size ask for.
#[test]
fn the_writer_picks_the_kind_by_the_marks_and_the_size() {
    for n in [3, 4, 32, 33, 299, 300] {
        for at in [0, n - 1, n] {
            let corners: Vec<Corner> = (0..n).map(|i| [i, MISSING, MISSING, (i == at) as u32]).collect();
            let mesh = Mesh { positions: (0..3 * n).map(|i| i as f64).collect(), ..Mesh::default() }.with_faces(&[corners]);
            let file = writing::write(&mesh);
            let kind = if at < n { 6 } else { 4 + (n > 32) as u8 };
            assert_eq!((file.len(), file[28 * n as usize + 2]), (writing::length(&mesh), kind), "{n} {at}");
            let read = panel_file::read(&file).unwrap();
            assert_eq!((&read.corners, &read.sizes), (&mesh.corners, &mesh.sizes));
            assert_eq!((writing::write(&read), writing::clean(&file)), (file.clone(), Ok(file)));
        }
    }
}

/// A file is cleaned with its marks: the folded corner goes with its own, and a face whose last mark goes is of kind 4 again.
#[test]
fn a_cleaned_file_has_its_marks() {
    let mesh = marked(&[&[(0, 0), (1, 0), (2, 4)], &[(3, 0), (3, 6), (1, 0), (0, 0)]]);
    let cleaned = panel_file::read(&writing::clean(&writing::write(&mesh)).unwrap()).unwrap();
    assert_eq!(cleaned.marks().collect::<Vec<_>>(), [0, 0, 4, 0, 0, 0]);
    let kinds: Vec<u8> = vec![6, 4];
    let file = writing::write(&cleaned);
    let first = 28 * cleaned.positions.len() / 3;
    assert_eq!([file[first + 2], file[first + 6 + 48 + 2]].to_vec(), kinds);
}
