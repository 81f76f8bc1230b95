//! The twelve examples of document 01, the sheet's example and the edges of the table, held to each of the three judges that answers.

use judge::mesh::{Corner, WIDTH};
use judge::{reading, rust, Answer, Call, Mesh, Question, MISSING};

/// A mesh by positions only, with as many positions as are named.
fn by_positions(faces: &[&[u32]]) -> Mesh {
    let count = faces.iter().flat_map(|face| face.iter()).max().map_or(0, |most| most + 1);
    let faces: Vec<Vec<Corner>> = faces.iter().map(|face| face.iter().map(|p| [*p, MISSING, MISSING, 0]).collect()).collect();
    Mesh { positions: (0..3 * count).map(|i| i as f64).collect(), ..Mesh::default() }.with_faces(&faces)
}

/// What each judge says to a call with exact rooms, where it says anything; all say the same.
fn judged(call: Call, mut question: Question) -> Answer {
    question.rooms = reading::numbers::stated_rooms(call, &question.mesh);
    let answer = reading::answer(call, &question);
    for other in [rust::untouched::answer(call, &question), rust::ascending::answer(call, &question)].into_iter().flatten() {
        assert_eq!(format!("{answer:?}"), format!("{other:?}"));
    }
    answer
}

fn ask(call: Call, mesh: &Mesh) -> String {
    let answer = judged(call, Question { mesh: mesh.clone(), ..Question::default() });
    format!("{:?} {:?}", answer.lists, answer.counts)
}

fn verdict(faces: &[&[u32]]) -> String {
    format!("{:?}", reading::edges::verdict(&by_positions(faces)))
}

/// Where a face's corners come from: their texture index is their place.
fn unfolded(face: &[u32]) -> Vec<Vec<u32>> {
    let mut mesh = by_positions(&[face]);
    mesh.textures = vec![0.0; 2 * face.len()];
    (0..face.len()).for_each(|i| mesh.corners[WIDTH * i + 1] = i as u32);
    judged(Call::RemoveDegenerateFaces, Question { mesh: mesh.clone(), ..Question::default() });
    let made = rust::untouched::remove_degenerate_faces(&mesh);
    Mesh { corners: made.corners, sizes: made.sizes, ..Mesh::default() }
        .faces()
        .iter()
        .map(|face| face.iter().map(|corner| corner[1]).collect())
        .collect()
}

#[test]
fn example_1_no_faces() {
    let none = by_positions(&[]);
    assert_eq!(ask(Call::ShellCondition, &none), "[] [Is(3)]");
    assert_eq!(ask(Call::ExtractBoundaries, &none), "[Words([]), Words([])] [Is(0), Is(0)]");
    assert_eq!(ask(Call::HouseWires, &none), "[Words([]), Words([])] [Is(0), Is(0)]");
    assert_eq!(ask(Call::Components, &none), "[Words([]), Words([])] [Is(0), Is(0)]");
}

#[test]
fn example_2_one_triangle() {
    let one = by_positions(&[&[0, 1, 2]]);
    assert_eq!(ask(Call::ShellCondition, &one), "[] [Is(2)]");
    assert_eq!(ask(Call::ExtractBoundaries, &one), "[Words([0, 1, 2]), Words([3])] [Is(3), Is(1)]");
    assert_eq!(ask(Call::HouseWires, &one), "[Words([0, 1, 2]), Words([3])] [Is(3), Is(1)]");
}

#[test]
fn example_3_regular() {
    assert_eq!(verdict(&[&[0, 1, 2], &[0, 1, 3]]), "Regular");
    assert_eq!(ask(Call::ShellCondition, &by_positions(&[&[0, 1, 2], &[0, 1, 3]])), "[] [Is(1)]");
}

#[test]
fn example_4_irregular() {
    let one = by_positions(&[&[0, 1, 2], &[1, 0, 3], &[0, 1, 4]]);
    let other = by_positions(&[&[0, 1, 2], &[0, 1, 4], &[1, 0, 3]]);
    for (mesh, hem, not) in [(&one, [0, 1], [1, 0]), (&other, [1, 0], [0, 1])] {
        assert_eq!(ask(Call::ShellCondition, mesh), "[] [Is(0)]");
        ask(Call::HemEdges, mesh);
        let hems = rust::untouched::hem_edges(mesh);
        assert!(hems.contains(&hem) && !hems.contains(&not));
    }
}

#[test]
fn examples_5_to_8_folded_faces() {
    assert_eq!(unfolded(&[0, 1, 1, 2]), [[0, 2, 3]]);
    assert!(unfolded(&[0, 1, 0, 2]).is_empty());
    assert_eq!(unfolded(&[0, 1, 2, 1, 3]), [[3, 4, 0]]);
    assert_eq!(unfolded(&[0, 1, 2, 0, 3, 4]), [[0, 1, 2], [3, 4, 5]]);
    // A ring that has fallen to four corners keeps the ring's rule.
    assert_eq!(unfolded(&[0, 0, 1, 1, 2]), [[3, 4, 1]]);
}

/// The faces that the result's came from, by each judge; the Rust's are read off texture points, whatever the mesh itself has there.
fn origins(mesh: &Mesh) -> Vec<u32> {
    judged(Call::RemoveDegenerateFaces, Question { mesh: mesh.clone(), ..Question::default() });
    let made = rust::untouched::remove_degenerate_faces(mesh);
    assert_eq!(made.origins.len(), made.sizes.len());
    made.origins
}

#[test]
fn each_face_has_the_number_of_the_face_it_came_from() {
    let of = |faces: &[&[u32]]| origins(&by_positions(faces));
    assert!(of(&[]).is_empty());
    assert!(of(&[&[0, 0, 1]]).is_empty());
    assert_eq!(of(&[&[0, 1, 1, 2]]), [0]);
    assert_eq!(of(&[&[0, 1, 2, 0, 3, 4]]), [0, 0]);
    // Nothing is folded: 0, 1, 2, .. .
    assert_eq!(of(&[&[0, 1, 2], &[0, 1, 2, 3], &[0, 1, 2, 3, 4]]), [0, 1, 2]);
    // What a quadrangle and a larger face leave stands behind the triangles that stay, and before the quadrangles.
    let mixed: &[&[u32]] =
        &[&[0, 1, 1], &[0, 1, 2], &[0, 1, 2, 3], &[3, 2, 2, 4], &[0, 1, 2, 3, 4], &[4, 3, 2, 4, 1, 0], &[0, 1, 2, 0, 3, 4, 5]];
    assert_eq!(of(mixed), [1, 3, 5, 5, 6, 2, 6, 4]);
}

#[test]
fn origins_do_not_go_by_what_the_corners_carry() {
    let mut mesh = by_positions(&[&[0, 1, 2], &[3, 4, 5, 3, 6, 7]]);
    mesh.textures = vec![0.5; 2];
    mesh.corners.iter_mut().skip(1).step_by(WIDTH).for_each(|texture| *texture = 0);
    assert_eq!(origins(&mesh), [0, 1, 1]);
}

#[test]
fn example_9_compaction() {
    let mesh = by_positions(&[&[5, 2, 4]]);
    ask(Call::RemoveUnusedAttrs, &mesh);
    let made = rust::untouched::remove_unused_attrs(&mesh);
    assert_eq!(made.corners, [0, MISSING, MISSING, 0, 1, MISSING, MISSING, 0, 2, MISSING, MISSING, 0]);
    assert_eq!(made.positions, [15.0, 16.0, 17.0, 6.0, 7.0, 8.0, 12.0, 13.0, 14.0]);
}

#[test]
fn examples_10_and_11_merging() {
    let mut mesh = by_positions(&[&[0, 1, 2]]);
    mesh.textures = vec![0.0, 0.0, 0.5, 0.0, 1.0, 0.0];
    (0..3).for_each(|i| mesh.corners[WIDTH * i + 1] = i as u32);
    for (tolerance, textures) in [(0.5, [0, 1, 2]), (0.625, [1, 1, 1])] {
        let question = Question { mesh: mesh.clone(), tolerance, ..Question::default() };
        judged(Call::PutTogetherSameAttrs, question);
        let made = rust::ascending::put_together_same_attrs(&mesh, tolerance);
        assert_eq!(made.pairs[1], 3);
        assert_eq!([made.corners[1], made.corners[5], made.corners[9]], textures);
    }
}

/// The stack meets the third of these texture points before the second, and both lie at the centre.
#[test]
fn of_equal_distances_the_first_in_walk_order() {
    let mut mesh = by_positions(&[&[0, 1, 2, 3]]);
    mesh.textures = vec![-0.25, 0.0, 0.0, 0.0, 0.0, 0.0, 0.25, 0.0];
    (0..4).for_each(|i| mesh.corners[WIDTH * i + 1] = i as u32);
    let answer = judged(Call::PutTogetherSameAttrs, Question { mesh, tolerance: 1.0, ..Question::default() });
    let corners = format!("{:?}", answer.lists[0]);
    assert_eq!(corners, format!("Words([0, 2, {0}, 0, 1, 2, {0}, 0, 2, 2, {0}, 0, 3, 2, {0}, 0])", MISSING));
}

#[test]
fn example_12_ported_wires() {
    let mesh = by_positions(&[&[0, 1, 4], &[1, 2, 3]]);
    assert_eq!(ask(Call::ExtractBoundaries, &mesh), "[Words([0, 1, 4, 2, 3, 1]), Words([3, 3])] [Is(6), Is(2)]");
    assert_eq!(ask(Call::HouseWires, &mesh), "[Words([0, 1, 4, 1, 2, 3]), Words([3, 3])] [Is(6), Is(2)]");
}

#[test]
fn a_cube_has_six_panels_by_normals_and_one_without() {
    let sides: [[u32; 4]; 6] = [[3, 2, 1, 0], [0, 1, 5, 4], [1, 2, 6, 5], [2, 3, 7, 6], [3, 0, 4, 7], [4, 5, 6, 7]];
    let faces: Vec<Vec<Corner>> = (0..6).map(|n| sides[n].iter().map(|p| [*p, MISSING, n as u32, 0]).collect()).collect();
    let mesh = Mesh { positions: vec![0.0; 24], normals: vec![0.0; 18], ..Mesh::default() }.with_faces(&faces);
    for (use_normal, panels) in [(true, 6), (false, 1)] {
        judged(Call::Components, Question { mesh: mesh.clone(), use_normal, ..Question::default() });
        assert_eq!(rust::untouched::components(&mesh, use_normal).len(), panels);
    }
}

/// The record with this kind and this body.
fn record(kind: u16, body: &[u8]) -> Vec<u8> {
    [&(body.len() as u16).to_le_bytes(), &kind.to_le_bytes(), body].concat()
}

fn face_record(positions: &[u32]) -> Vec<u8> {
    let corners = positions.iter().flat_map(|p| [*p, MISSING, MISSING]).flat_map(u32::to_le_bytes);
    record(4, &[positions.len() as u8].into_iter().chain(corners).collect::<Vec<u8>>())
}

/// The file of document 01: five positions, three faces, of which one is folded.
fn document() -> Vec<u8> {
    let positions = record(1, &[0; 24]).repeat(5);
    let faces = [face_record(&[1, 2, 3]), face_record(&[3, 1, 3]), face_record(&[1, 3, 4])].concat();
    [positions, faces, record(0, &[])].concat()
}

#[test]
fn the_sheet_of_document_01() {
    let file = document();
    assert_eq!(file.len(), 267);
    assert_eq!(reading::sheet::sheet(&file), "mesh 4 0 0 2\nverdict Oriented\npanels 1\nhem 0 1 2 3\n");
}

/// A mesh with something in each list, faces of three sizes, and coordinates of every kind that a file may have.
fn furnished() -> Mesh {
    let faces: Vec<Vec<Corner>> =
        [3, 4, 32].iter().map(|n| (0..*n).map(|i| [i % 2, [0, MISSING][i as usize % 2], 0, 0]).collect()).collect();
    let positions = vec![0.0, -0.0, f64::MIN_POSITIVE, 5e-324, -1.5, f64::MAX];
    let (textures, normals) = (vec![0.1, f64::MIN], vec![1.0, 2.0, -3.0]);
    Mesh { positions, textures, normals, ..Mesh::default() }.with_faces(&faces)
}

fn bits(mesh: &Mesh) -> String {
    let of = |list: &[f64]| list.iter().map(|x| x.to_bits()).collect::<Vec<u64>>();
    format!("{:?} {:?} {:?} {:?} {:?}", of(&mesh.positions), of(&mesh.textures), of(&mesh.normals), mesh.corners, mesh.sizes)
}

#[test]
fn what_is_written_is_read_back_bit_for_bit() {
    for mesh in [Mesh::default(), by_positions(&[&[0, 1, 2], &[3, 2, 1, 0]]), furnished()] {
        let file = reading::writing::write(&mesh);
        assert_eq!(file.len(), reading::writing::length(&mesh));
        let read = reading::panel_file::read(&file).unwrap();
        assert_eq!(bits(&read), bits(&mesh));
        assert_eq!(reading::writing::write(&read), file);
    }
    assert_eq!(reading::writing::write(&Mesh::default()), [0; 4]);
}

/// Lengths, kinds and numbers with their lowest byte first; positions, texture points, normals, faces, end.
#[test]
fn a_written_file_byte_by_byte() {
    let faces = [vec![[0, 0, MISSING, 0], [258, MISSING, 0, 0], [1, 0, 0, 0]]];
    let (positions, textures, normals) = (vec![1.0, -0.0, -2.0], vec![0.5, 0.0], vec![0.0, 0.0, f64::MAX]);
    let mesh = Mesh { positions, textures, normals, ..Mesh::default() }.with_faces(&faces);
    #[rustfmt::skip]
    let file = [
        24, 0, 1, 0, 0, 0, 0, 0, 0, 0, 0xf0, 0x3f, 0, 0, 0, 0, 0, 0, 0, 0x80, 0, 0, 0, 0, 0, 0, 0, 0xc0,
        16, 0, 2, 0, 0, 0, 0, 0, 0, 0, 0xe0, 0x3f, 0, 0, 0, 0, 0, 0, 0, 0,
        24, 0, 3, 0, 0, 0, 0, 0, 0, 0, 0, 0, 0, 0, 0, 0, 0, 0, 0, 0, 255, 255, 255, 255, 255, 255, 0xef, 0x7f,
        37, 0, 4, 0, 3, 0, 0, 0, 0, 0, 0, 0, 0, 255, 255, 255, 255, 2, 1, 0, 0, 255, 255, 255, 255, 0, 0, 0, 0, 1, 0, 0, 0, 0, 0, 0, 0, 0, 0, 0, 0,
        0, 0, 0, 0,
    ];
    assert_eq!(reading::writing::write(&mesh), file);
}

#[test]
fn the_longest_file_has_every_list_at_its_limit() {
    let sizes: Vec<u32> = (0..1_365).map(|face| if face < 1_364 { 3 } else { 4 }).collect();
    let (points, texels, corners) = (vec![0.5; 3 * 2_048], vec![0.5; 2 * 2_048], [0, 0, 0, 1].repeat(4_096));
    let mesh = Mesh { positions: points.clone(), textures: texels, normals: points, corners, sizes };
    assert_eq!(reading::numbers::mesh_number(&mesh), 0);
    let file = reading::writing::write(&mesh);
    assert_eq!((file.len(), reading::writing::LONGEST), (229_378, 229_378));
    assert_eq!(bits(&reading::panel_file::read(&file).unwrap()), bits(&mesh));
}

#[test]
fn the_writer_refuses_in_order() {
    let number = |mesh: &Mesh, room: usize| {
        let question = Question { mesh: mesh.clone(), rooms: vec![room], ..Question::default() };
        reading::answer(Call::WritePanel, &question).number
    };
    let (good, mut astray) = (by_positions(&[&[0, 1, 2]]), by_positions(&[&[0, 1, 2]]));
    assert_eq!([number(&good, 129), number(&good, 128), number(&good, 0)], [0, 9, 9]);
    astray.corners[0] = 3;
    assert_eq!([number(&astray, 129), number(&astray, 128)], [5, 5]);
}

#[test]
fn a_cleaned_file() {
    let file = reading::writing::clean(&document()).unwrap();
    let faces = [face_record(&[0, 1, 2]), face_record(&[0, 2, 3])].concat();
    assert_eq!(file, [record(1, &[0; 24]).repeat(4), faces, record(0, &[])].concat());
    assert_eq!(reading::writing::clean(&file).unwrap(), file);
    assert_eq!(reading::sheet::sheet(&file), reading::sheet::sheet(&document()));
    assert_eq!(reading::writing::clean(&document()[..266]).err(), Some(11));
    // Dropped faces of no corners, five bytes each, and two of one, seventeen each, make a file as long as the longest and one that is longer.
    let dropped = [face_record(&[0]).repeat(2), record(4, &[0]).repeat((229_378 - 4 - 34) / 5)].concat();
    assert_eq!(reading::writing::clean(&[&dropped[..], &[0; 4]].concat()), Ok(vec![0; 4]));
    assert_eq!(reading::writing::clean(&[&dropped[..], &[0; 5]].concat()), Err(1));
}

#[test]
fn files_are_refused_in_order() {
    let end = record(0, &[]);
    let read = |records: &[&[u8]]| reading::panel_file::read(&records.concat()).err().unwrap_or(0);
    assert_eq!(read(&[&end]), 0);
    assert_eq!(read(&[]), 11);
    assert_eq!(read(&[&[0, 0, 0]]), 11);
    assert_eq!(read(&[&record(7, &[]), &end]), 12);
    assert_eq!(read(&[&record(0, &[0]), &end]), 12);
    assert_eq!(read(&[&record(1, &[0; 23]), &end]), 12);
    assert_eq!(read(&[&record(1, &[0; 24])[..27]]), 11);
    assert_eq!(read(&[&record(4, &[1; 25]), &end]), 12);
    assert_eq!(read(&[&face_record(&[0; 33]), &end]), 3);
    assert_eq!(read(&[&record(2, &[0; 16]).repeat(2_048), &end]), 0);
    assert_eq!(read(&[&record(2, &[0; 16]).repeat(2_049), &end]), 1);
    assert_eq!(read(&[&face_record(&[0, 1, 2]), &end, &[0]]), 13);
    assert_eq!(read(&[&face_record(&[0, 1, 2]), &end]), 5);
    assert_eq!(read(&[&face_record(&[0, 1]), &end]), 0);
}

#[test]
fn tolerances_on_both_sides() {
    let number = |tolerance| reading::numbers::merging_number(&Mesh::default(), tolerance);
    let least = 2f64.powi(-30);
    for accepted in [least, 0.5, 1.0] {
        assert_eq!(number(accepted), 0);
    }
    for refused in
        [f64::NAN, f64::INFINITY, -1.0, 0.0, -0.0, f64::from_bits(least.to_bits() - 1), f64::from_bits(1f64.to_bits() + 1)]
    {
        assert_eq!(number(refused), 6);
    }
}

#[test]
fn sizes_do_not_wrap() {
    let mesh = Mesh { corners: vec![0; 4 * WIDTH], sizes: vec![MISSING, 5], ..Mesh::default() };
    assert_eq!(reading::numbers::mesh_number(&mesh), 2);
}
