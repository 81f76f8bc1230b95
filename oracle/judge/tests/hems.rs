//! 'The hem sheet as a product of its own', the thirteenth request of document 02.

use judge::mesh::{Corner, Hem};
use judge::reading::hems::{list, parts, sheet, whole_root, FILE};
use judge::reading::numbers::stated_rooms;
use judge::reading::{self, edges, writing};
use judge::{Answer, Call, Count, Mesh, Numbers, Question, MISSING};

/// Faces by position and normal.
fn mesh(positions: usize, faces: &[&[[u32; 2]]]) -> Mesh {
    let corner = |[position, normal]: &[u32; 2]| -> Corner { [*position, MISSING, *normal, 0] };
    let faces: Vec<Vec<Corner>> = faces.iter().map(|face| face.iter().map(corner).collect()).collect();
    Mesh { positions: vec![0.5; 3 * positions], normals: vec![0.0; 6], ..Mesh::default() }.with_faces(&faces)
}

/// Faces by positions alone.
fn by_positions(positions: usize, faces: &[&[u32]]) -> Mesh {
    let faces: Vec<Vec<[u32; 2]>> = faces.iter().map(|face| face.iter().map(|p| [*p, MISSING]).collect()).collect();
    mesh(positions, &faces.iter().map(|face| &face[..]).collect::<Vec<_>>())
}

fn asked(mesh: &Mesh, triples: &[i32], rooms: Vec<usize>) -> Answer {
    reading::answer(Call::ListHems, &Question { mesh: mesh.clone(), triples: triples.to_vec(), rooms, ..Question::default() })
}

fn number(mesh: &Mesh, triples: &[i32]) -> u32 {
    asked(mesh, triples, stated_rooms(Call::ListHems, mesh)).number
}

fn hem(panel: u32, edges: u32, length: u64) -> Hem {
    Hem { panel, edges, length }
}

/// The positions 0 to 2 of a triangle whose sides are 3, 4 and 5.
const THREE_FOUR_FIVE: [i32; 9] = [0, 0, 0, 3, 0, 0, 3, 4, 0];

#[test]
fn a_hem_has_its_panel_its_edges_and_its_length() {
    let triangle = by_positions(3, &[&[0, 1, 2]]);
    assert_eq!(list(&triangle, &THREE_FOUR_FIVE), [hem(0, 3, 3 + 4 + 5)]);
    let answer = asked(&triangle, &THREE_FOUR_FIVE, vec![3, 4, 5]);
    assert_eq!((answer.number, &answer.counts[..]), (0, &[Count::Is(1)][..]));
    assert!(
        matches!(&answer.lists[..], [Numbers::Words(p), Numbers::Words(e), Numbers::Longs(l)] if p[..] == [0] && e[..] == [3] && l[..] == [12])
    );
}

#[test]
fn an_edge_is_as_long_as_the_greatest_whole_number_whose_square_is_not_above() {
    assert_eq!((0..=17).map(whole_root).collect::<Vec<_>>(), [0, 1, 1, 1, 2, 2, 2, 2, 2, 3, 3, 3, 3, 3, 3, 3, 4, 4]);
    for root in [2u128, 3, 1_000, 65_535, 65_536, 3_464_101, 4_294_967_295, 4_294_967_296] {
        assert_eq!([root * root - 1, root * root, root * (root + 2)].map(whole_root).map(u128::from), [root - 1, root, root]);
    }
    // The longest edge: twice 1,000,000 on each axis.
    assert_eq!(whole_root(3 * 2_000_000 * 2_000_000), 3_464_101);
}

/// A quadrangle and a triangle that touch at a point are two hems of two panels; panels are numbered by their lowest face, hems by their start.
#[test]
fn hems_stand_in_the_order_of_house_wires_and_panels_in_that_of_components() {
    let touching = by_positions(6, &[&[1, 4, 5], &[0, 1, 2, 3]]);
    let triples: Vec<i32> = (0..6).flat_map(|i| [10 * i, 0, 0]).collect();
    assert_eq!(list(&touching, &triples), [hem(1, 4, 10 + 10 + 10 + 30), hem(0, 3, 30 + 10 + 40)]);
}

#[test]
fn panels_are_those_without_the_normals_setting() {
    let one = mesh(4, &[&[[0, 0], [1, 0], [2, 0]], &[[0, 1], [2, 1], [3, 1]]]);
    assert_eq!(reading::panels::components(&one, true).len(), 2);
    assert_eq!(list(&one, &[0; 12]), [hem(0, 4, 0)]);
}

/// A folded face is taken as it is: its edge from a position to itself is a hem edge, of length 0.
#[test]
fn the_mesh_is_not_cleaned() {
    let folded = by_positions(3, &[&[0, 0, 1, 2]]);
    assert_eq!(list(&folded, &THREE_FOUR_FIVE), [hem(0, 4, 3 + 4 + 5)]);
}

#[test]
fn the_edges_of_all_hems_are_the_hem_edges() {
    let meshes = [by_positions(5, &[&[0, 1, 4], &[1, 2, 3]]), by_positions(6, &[&[0, 1, 2], &[0, 2, 3], &[3, 4, 5]])];
    for mesh in &meshes {
        let edges: u32 = list(mesh, &vec![7; mesh.positions.len()]).iter().map(|hem| hem.edges).sum();
        assert_eq!(edges as usize, edges::hem_edges(mesh).len());
    }
}

#[test]
fn no_faces_have_no_hems_and_a_closed_cover_has_none() {
    assert_eq!(number(&Mesh::default(), &[]), 0);
    assert_eq!(list(&Mesh::default(), &[]), []);
    let closed = by_positions(4, &[&[0, 1, 2], &[0, 2, 3], &[0, 3, 1], &[1, 3, 2]]);
    assert_eq!(list(&closed, &[1; 12]), []);
}

/// After 5: 18, 19, 9, 10; each with all that come after it.
#[test]
fn numbers_come_in_their_order() {
    let irregular = by_positions(3, &[&[0, 1, 2], &[0, 1, 2], &[0, 1, 2]]);
    let off = by_positions(2, &[&[0, 1, 2], &[0, 1, 2], &[0, 1, 2]]);
    let (short, right, beyond) = (vec![8; 3], vec![9; 3], [0, 0, 1_000_001, 0, 0, 0, 0, 0, 0]);
    assert_eq!(asked(&off, &beyond, short.clone()).number, 5);
    assert_eq!(asked(&irregular, &beyond[..8], short.clone()).number, 18);
    assert_eq!(asked(&irregular, &beyond, short.clone()).number, 19);
    assert_eq!(asked(&irregular, &[0; 9], short).number, 9);
    assert_eq!(asked(&irregular, &[0; 9], right).number, 10);
    let triangle = by_positions(3, &[&[0, 1, 2]]);
    (0..3).for_each(|list| {
        let mut rooms = vec![3; 3];
        rooms[list] = 2;
        assert_eq!(asked(&triangle, &[0; 9], rooms).number, 9);
    });
}

#[test]
fn both_sides_of_18_and_19() {
    let triangle = by_positions(4, &[&[0, 1, 2]]);
    let lengths: Vec<u32> = [0, 9, 11, 12, 13, 14, 15].iter().map(|length| number(&triangle, &vec![0; *length])).collect();
    assert_eq!(lengths, [18, 18, 18, 0, 18, 18, 18]);
    // The last coordinate of a position that no corner uses.
    let far = [-1_000_000, 1_000_000, -1_000_001, 1_000_001, i32::MIN, i32::MAX];
    let numbers = far.map(|last| number(&triangle, &[&[0; 11], &[last][..]].concat()));
    assert_eq!(numbers, [0, 0, 19, 19, 19, 19]);
}

/// A whole input of the program.
fn input(panel: &[u8], triples: &[i32]) -> Vec<u8> {
    let triples: Vec<u8> = triples.iter().flat_map(|coordinate| coordinate.to_le_bytes()).collect();
    [&(panel.len() as u32).to_le_bytes(), panel, &triples].concat()
}

#[test]
fn the_program_prints_a_line_for_each_hem() {
    let touching = by_positions(5, &[&[0, 1, 4], &[1, 2, 3]]);
    let triples: Vec<i32> = (0..5).flat_map(|i| [0, -i, 0]).collect();
    assert_eq!(sheet(&input(&writing::write(&touching), &triples)), "hem 0 3 8\nhem 1 3 4\n");
    let closed = by_positions(0, &[]);
    assert_eq!(sheet(&input(&writing::write(&closed), &[])), "");
}

/// The longest hem sheet has no line of more than 26 bytes: panels and edges up to 4,096, and a length below 100,000,000,000.
#[test]
fn a_line_has_room() {
    let longest = hem(1_364, 4_096, 4_096 * 3_464_101);
    assert_eq!(judge::reading::hems::line(&longest).len(), 26);
}

#[test]
fn the_program_refuses_in_its_order() {
    let irregular = writing::write(&by_positions(3, &[&[0, 1, 2], &[0, 1, 2], &[0, 1, 2]]));
    let whole = input(&irregular, &[0; 9]);
    let panel = 4 + irregular.len();
    assert_eq!(sheet(&whole), "refused 10\n");
    assert_eq!([0, 1, 3, 4, 5, panel - 1].map(|length| sheet(&whole[..length])), ["refused 11\n"; 6]);
    assert_eq!([panel, panel + 11, panel + 12, whole.len() - 1].map(|length| sheet(&whole[..length])), ["refused 18\n"; 4]);
    assert_eq!(sheet(&[&whole[..], &[0]].concat()), "refused 18\n");
    assert_eq!(sheet(&[&whole[..], &[0; 12]].concat()), "refused 18\n");
    assert_eq!(sheet(&input(&irregular, &[0, 0, 0, 0, 0, 0, 0, 0, -1_000_001])), "refused 19\n");
    // The reader's own numbers come before 18, whatever the triples are.
    assert_eq!(sheet(&input(&irregular[..irregular.len() - 1], &[7])), "refused 11\n");
    assert_eq!(sheet(&input(&[&irregular[..], &[0]].concat(), &[7])), "refused 13\n");
    assert_eq!(sheet(&input(&[0, 0, 9, 0], &[7])), "refused 12\n");
    assert_eq!(sheet(&[3, 0, 0, 0, 0, 0, 0, 0]), "refused 11\n");
    // A count far beyond the file.
    assert_eq!(sheet(&[255, 255, 255, 255, 0, 0, 0, 0]), "refused 11\n");
    // An end record alone: no positions, and no triples.
    assert_eq!(sheet(&[4, 0, 0, 0, 0, 0, 0, 0]), "");
}

/// The count, the panel file and the triples together are at most 65,536 bytes; a longer input is not looked at.
#[test]
fn the_longest_input() {
    let mut long = vec![0; FILE];
    assert_eq!(sheet(&long), "refused 11\n");
    long.push(0);
    assert_eq!(sheet(&long), "refused 1\n");
    // Faces of no corner fill the file: five bytes each.
    let nothing = [1, 0, 4, 0, 0].repeat((FILE - 8) / 5);
    let panel = [&nothing[..], &[0; 4]].concat();
    let whole = input(&panel, &[]);
    assert_eq!((whole.len(), sheet(&whole)), (FILE - 3, String::new()));
    assert_eq!(parts(&whole), Some((&panel[..], &[][..])));
}
