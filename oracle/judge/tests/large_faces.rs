//! 'Round tables have more than 32 sides', the sixth request of document 02: faces of up to 300 corners, and kind 5 of the panel file.

use judge::reading::{self, numbers, panel_file, sheet, writing};
use judge::{rust, Call, Mesh, Question, MISSING};

/// The record with this kind, whose count is this n in so many bytes, and whose body has m corners at the first position.
fn face(kind: u16, count: usize, n: usize, m: usize) -> Vec<u8> {
    let corners = [0, MISSING, MISSING].into_iter().flat_map(u32::to_le_bytes).collect::<Vec<u8>>().repeat(m);
    record(kind, &[&n.to_le_bytes()[..count], &corners].concat())
}

fn record(kind: u16, body: &[u8]) -> Vec<u8> {
    [&(body.len() as u16).to_le_bytes(), &kind.to_le_bytes(), body].concat()
}

fn small(n: usize) -> Vec<u8> {
    face(4, 1, n, n)
}

fn large(n: usize) -> Vec<u8> {
    face(5, 2, n, n)
}

/// What the reader answers to a position, these records and the end.
fn number(records: &[u8]) -> u32 {
    let position = record(1, &[0; 24]);
    panel_file::read(&[&position[..], records, &[0; 4]].concat()).err().unwrap_or(0)
}

/// One face with so many corners, all apart.
fn ring(corners: u32) -> Mesh {
    let face = (0..corners).map(|i| [i, MISSING, MISSING, 0]).collect();
    Mesh { positions: (0..3 * corners).map(|i| i as f64).collect(), ..Mesh::default() }.with_faces(&[face])
}

#[test]
fn sizes_of_3_to_300_are_taken() {
    for (corners, right) in [(2, 3), (3, 0), (32, 0), (33, 0), (299, 0), (300, 0), (301, 3), (4_096, 1), (2_048, 3)] {
        assert_eq!(numbers::mesh_number(&ring(corners)), right, "{corners}");
    }
    for (corners, right) in [(32, 0), (33, 0), (300, 0), (301, 3)] {
        assert_eq!(numbers::faces_number(&ring(corners)), right, "{corners}");
    }
}

#[test]
fn kind_4_is_as_before() {
    for n in 0..=32 {
        assert_eq!(number(&small(n)), 0, "{n}");
    }
    for n in 33..=255 {
        assert_eq!(number(&small(n)), 3, "{n}");
    }
    assert_eq!(number(&record(4, &[0; 1 + 12 * 256])), 12);
}

#[test]
fn kind_5_has_33_to_300_corners() {
    for n in 0..=32 {
        assert_eq!(number(&large(n)), 12, "{n}");
    }
    for n in 33..=300 {
        assert_eq!(number(&large(n)), 0, "{n}");
    }
    for n in [301, 302, 556, 4_095, 4_096, 5_461] {
        assert_eq!(number(&large(n)), 3, "{n}");
    }
    for off in (0..12).filter(|off| *off != 2) {
        for m in [33, 300, 301, 5_460] {
            assert_eq!(number(&record(5, &vec![0; 12 * m + off])), 12, "{m} {off}");
        }
    }
    assert_eq!(number(&record(5, &[])), 12);
    assert_eq!(number(&record(6, &large(33)[4..])), 12);
}

/// Kind 12, length 12, body cut 11, n unlike m 12, n over 300 3, limit 1.
#[test]
fn kind_5_is_refused_in_order() {
    let cut = |record: Vec<u8>, less: usize| panel_file::read(&record[..record.len() - less]).err();
    assert_eq!([cut(large(32), 1), cut(large(33), 1), cut(large(300), 3_600), cut(large(301), 1)], [12, 11, 11, 11].map(Some));
    assert_eq!([cut(face(5, 2, 34, 33), 1), cut(large(5_461), 1)], [11, 11].map(Some));
    // n unlike m, also where n is over 300 or where one byte of it would be m.
    for (n, m) in [(32, 33), (34, 33), (301, 300), (300, 301), (33 + 256, 33), (44, 300), (0, 256), (0xffff, 5_461)] {
        assert_eq!(number(&face(5, 2, n, m)), 12, "{n} {m}");
    }
    // 13 faces of 300 leave room for 196 corners.
    let full = large(300).repeat(13);
    assert_eq!(number(&full), 0);
    assert_eq!(number(&[&full[..], &large(196)].concat()), 0);
    assert_eq!(number(&[&full[..], &large(197)].concat()), 1);
    assert_eq!(number(&[&full[..], &large(301)].concat()), 3);
    assert_eq!(number(&[&full[..], &face(5, 2, 300, 301)].concat()), 12);
    // An index that is off is asked of all records; so is what follows the end.
    assert_eq!(panel_file::read(&[&large(33)[..], &[0; 4]].concat()).err(), Some(5));
    assert_eq!(panel_file::read(&[&large(33)[..], &[0; 5]].concat()).err(), Some(13));
}

#[test]
fn the_writer_picks_the_kind_by_the_size() {
    for n in [3, 31, 32, 33, 255, 256, 299, 300] {
        let mesh = ring(n);
        let file = writing::write(&mesh);
        assert_eq!(file.len(), writing::length(&mesh));
        let header = &file[28 * n as usize..][..7];
        let right = if n < 33 { vec![4, 0, n as u8] } else { vec![5, 0, n as u8, (n >> 8) as u8] };
        assert_eq!(header[2..2 + right.len()], right[..], "{n}");
        let count = right.len() - 2;
        assert_eq!(header[..2], (count as u16 + 12 * n as u16).to_le_bytes());
        let read = panel_file::read(&file).unwrap();
        assert_eq!((&read.corners, &read.sizes, &read.positions), (&mesh.corners, &mesh.sizes, &mesh.positions));
        assert_eq!(writing::write(&read), file);
        assert_eq!(writing::clean(&file).unwrap(), file);
    }
}

/// A face of a kind that has another's size comes back by the writer's kind.
#[test]
fn the_room_is_that_of_the_file() {
    for (n, bytes) in [(32, 28 * 32 + 5 + 12 * 32 + 4), (33, 28 * 33 + 6 + 12 * 33 + 4), (300, 28 * 300 + 6 + 3_600 + 4)] {
        let ask = |room: usize| {
            reading::answer(Call::WritePanel, &Question { mesh: ring(n), rooms: vec![room], ..Question::default() })
        };
        assert_eq!([ask(bytes).number, ask(bytes - 1).number], [0, 9]);
    }
    let rounds = Mesh { sizes: [vec![3; 265], vec![300; 11], vec![1]].concat(), ..Mesh::default() };
    assert!(writing::length(&rounds) < writing::LONGEST);
}

/// A drum with a lid of 300 corners, and the sheet of a lid alone.
#[test]
fn sheets_of_large_faces() {
    let lid = writing::write(&ring(300));
    let hem: String = (0..300).map(|i| format!(" {i}")).collect();
    assert_eq!(sheet::sheet(&lid), format!("mesh 300 0 0 1\nverdict Oriented\npanels 1\nhem{hem}\n"));
    let wall = (0..300u32).map(|i| [i, (i + 1) % 300, 300 + (i + 1) % 300, 300 + i].map(|p| [p, MISSING, MISSING, 0]).to_vec());
    let lids = [(0..300).rev().collect::<Vec<u32>>(), (300..600).collect()];
    let faces: Vec<Vec<_>> = wall.chain(lids.map(|lid| lid.into_iter().map(|p| [p, MISSING, MISSING, 0]).collect())).collect();
    let drum = Mesh { positions: vec![0.5; 1_800], ..Mesh::default() }.with_faces(&faces);
    assert_eq!(sheet::sheet(&writing::write(&drum)), "mesh 600 0 0 302\nverdict Closed\npanels 1\n");
}

/// Rings of 300 corners, folded in several ways, have the pieces that the Rust gives.
#[test]
fn folded_rings_of_300_as_the_rust_has_them() {
    let ways: [fn(u32) -> u32; 7] =
        [|i| i, |_| 0, |i| i % 2, |i| i % 150, |i| i.min(299 - i), |i| if i % 3 == 0 { 0 } else { i }, |i| i * i % 300];
    for way in ways {
        let face = (0..300).map(|i| [way(i), MISSING, MISSING, 0]).collect();
        let mesh = Mesh { positions: vec![0.5; 900], ..Mesh::default() }.with_faces(&[face]);
        let question = Question { mesh, rooms: vec![1_200, 100, 100], ..Question::default() };
        let right = reading::answer(Call::RemoveDegenerateFaces, &question);
        assert_eq!(right.number, 0);
        for other in [rust::untouched::answer, rust::ascending::answer] {
            assert_eq!(format!("{:?}", other(Call::RemoveDegenerateFaces, &question)), format!("{:?}", Some(&right)));
        }
    }
}
