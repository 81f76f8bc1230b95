//! 'Compact without a second list', the twelfth request of document 02.

use judge::mesh::{Compacted, Corner};
use judge::reading::numbers::{mesh_number, stated_rooms, ATTRIBUTES};
use judge::reading::{self, cleaning};
use judge::{rust, Answer, Call, Count, Mesh, Numbers, Question, MISSING};

/// Faces by their corners, over so many positions, texture points and normals, each number of which is another.
fn mesh(counts: [usize; 3], faces: &[&[Corner]]) -> Mesh {
    let list = |from: usize, length: usize| (from..from + length).map(|i| i as f64 + 0.5).collect();
    let faces: Vec<Vec<Corner>> = faces.iter().map(|face| face.to_vec()).collect();
    Mesh {
        positions: list(0, 3 * counts[0]),
        textures: list(10_000, 2 * counts[1]),
        normals: list(20_000, 3 * counts[2]),
        ..Mesh::default()
    }
    .with_faces(&faces)
}

fn asked(mesh: &Mesh, room: usize) -> Answer {
    reading::answer(Call::CompactInPlace, &Question { mesh: mesh.clone(), rooms: vec![room], ..Question::default() })
}

fn floats(answer: &Answer, list: usize) -> Vec<u64> {
    match &answer.lists[list] {
        Numbers::Floats(list) => list.iter().map(|x| x.to_bits()).collect(),
        _ => panic!("no list of f64"),
    }
}

fn words(answer: &Answer, list: usize) -> &[u32] {
    match &answer.lists[list] {
        Numbers::Words(list) => list,
        _ => panic!("no list of u32"),
    }
}

fn bits(list: &[f64]) -> Vec<u64> {
    list.iter().map(|x| x.to_bits()).collect()
}

/// Positions are used in the order third, first, fourth, and the second is not used; so first use is not ascending.
fn turned() -> Mesh {
    let face: &[Corner] = &[[2, 1, MISSING, 7], [0, MISSING, 2, 0], [3, 1, 0, MISSING], [2, 0, 2, 9]];
    mesh([4, 2, 3], &[face])
}

#[test]
fn entries_move_to_their_first_use_places_and_zero_bits_stand_behind_them() {
    let (given, answer) = (turned(), asked(&turned(), 4));
    assert_eq!((answer.number, &answer.counts[..]), (0, &[Count::Is(3), Count::Is(2), Count::Is(2)][..]));
    let entry = |list: &[f64], width: usize, i: usize| list[width * i..][..width].to_vec();
    let (p, t, n) = (&given.positions, &given.textures, &given.normals);
    assert_eq!(floats(&answer, 0), bits(&[entry(p, 3, 2), entry(p, 3, 0), entry(p, 3, 3), vec![0.0; 3]].concat()));
    assert_eq!(floats(&answer, 1), bits(&[entry(t, 2, 1), entry(t, 2, 0)].concat()));
    assert_eq!(floats(&answer, 2), bits(&[entry(n, 3, 2), entry(n, 3, 0), vec![0.0; 3]].concat()));
    // The marks stand where they stood, and a missing index stays missing.
    let corners: [Corner; 4] = [[0, 0, MISSING, 7], [1, MISSING, 0, 0], [2, 0, 1, MISSING], [0, 1, 0, 9]];
    assert_eq!(words(&answer, 3), corners.concat());
    assert_eq!(words(&answer, 4), [0; 4]);
}

/// Of a longer number list only the stated entries are zeros: the rest is no part of the answer, and so stays as it was.
#[test]
fn a_longer_number_list_keeps_its_rest() {
    assert_eq!(words(&asked(&turned(), 9), 4), [0; 4]);
}

#[test]
fn the_number_list_has_an_entry_for_each_of_the_longest_list() {
    let face: &[Corner] = &[[0, MISSING, MISSING, 0]; 3];
    for (counts, longest) in [([5, 2, 3], 5), ([2, 5, 3], 5), ([2, 3, 5], 5), ([4, 4, 4], 4)] {
        let mesh = mesh(counts, &[face]);
        assert_eq!(stated_rooms(Call::CompactInPlace, &mesh), [longest]);
        assert_eq!([longest - 1, longest, longest + 1].map(|room| asked(&mesh, room).number), [9, 0, 0]);
    }
    let none = Mesh::default();
    assert_eq!(asked(&none, 0).number, 0);
    let most = mesh([ATTRIBUTES; 3], &[face]);
    assert_eq!([ATTRIBUTES - 1, ATTRIBUTES].map(|room| asked(&most, room).number), [9, 0]);
}

/// 1 to 5 as the mesh earns, before 9; the lists are as they were, the number list too, and each count is 0.
#[test]
fn on_a_refusal_nothing_moves() {
    let face: &[Corner] = &[[2, MISSING, MISSING, 0], [1, MISSING, MISSING, 0], [0, MISSING, MISSING, 3]];
    let (over, right) = (mesh([ATTRIBUTES + 1, 0, 0], &[face]), mesh([3, 0, 0], &[face]));
    let ragged = Mesh { positions: vec![0.5; 10], ..right.clone() };
    let small = Mesh { sizes: vec![1, 2], ..right.clone() };
    let square: &[Corner] = &[[0, MISSING, MISSING, 0]; 4];
    let ungrouped = mesh([3, 0, 0], &[square, face]);
    let astray = mesh([2, 0, 0], &[face]);
    for (number, refused) in [(1, over), (2, ragged), (3, small), (4, ungrouped), (5, astray), (9, right)] {
        assert_eq!(mesh_number(&refused), if number == 9 { 0 } else { number });
        let answer = asked(&refused, 0);
        assert_eq!((answer.number, &answer.counts[..]), (number, &[Count::Is(0); 3][..]));
        assert_eq!(floats(&answer, 0), bits(&refused.positions));
        assert_eq!((words(&answer, 3), words(&answer, 4)), (&refused.corners[..], &[][..]));
    }
}

/// Beside the Rust's compaction and the ordinary reading: the same counts, corners and first entries, bit for bit, infinities, zeros of both signs and
/// NaNs among them.
#[test]
fn the_first_entries_are_those_of_ordinary_compaction() {
    let mut given = turned();
    given.positions[6..9].copy_from_slice(&[-0.0, f64::NAN, f64::NEG_INFINITY]);
    given.textures[2] = -0.0;
    let answer = asked(&given, 4);
    let made = [
        cleaning::remove_unused_attrs(&given),
        rust::untouched::remove_unused_attrs(&given),
        rust::ascending::remove_unused_attrs(&given),
    ];
    for Compacted { corners, positions, textures, normals } in made {
        assert_eq!(words(&answer, 3), corners);
        for (list, kept) in [positions, textures, normals].iter().enumerate() {
            let moved = floats(&answer, list);
            assert_eq!(moved[..kept.len()], bits(kept)[..]);
            assert!(moved[kept.len()..].iter().all(|freed| *freed == 0));
        }
    }
}

/// Compacted in place and then once more, with the freed room cut off: nothing changes.
#[test]
fn a_second_time_changes_nothing() {
    let first = reading::in_place::compact(&turned());
    let (mut cut, [positions, textures, normals]) = (first.mesh, first.counts);
    cut.positions.truncate(3 * positions);
    cut.textures.truncate(2 * textures);
    cut.normals.truncate(3 * normals);
    let second = reading::in_place::compact(&cut);
    assert_eq!(format!("{:?}", second.mesh), format!("{cut:?}"));
    // And with it left standing, which no corner uses.
    let whole = reading::in_place::compact(&reading::in_place::compact(&turned()).mesh);
    assert_eq!((whole.counts, whole.mesh.corners), (first.counts, cut.corners));
}
