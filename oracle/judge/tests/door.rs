//! 'No broken coordinates past the door', the second request of document 02: number 14 of the reader, of the writer and of what stands on
//! them, at its place among the other numbers.

use judge::reading::{self, panel_file, sheet, writing};
use judge::{Call, Mesh, Question, MISSING};

/// Not a number, quiet and signalling, of either sign, with digits of its own; and both infinities.
const BROKEN: [u64; 8] = [
    0x7ff8_0000_0000_0000,
    0xfff8_0000_0000_0000,
    0x7ff0_0000_0000_0001,
    0xfff0_0000_0000_0001,
    0x7ff7_ffff_ffff_ffff,
    0xffff_ffff_ffff_ffff,
    0x7ff0_0000_0000_0000,
    0xfff0_0000_0000_0000,
];

/// Both sides of zero, and the numbers beside what is broken.
const WHOLE: [f64; 6] = [0.0, -0.0, 5e-324, f64::MAX, f64::MIN, 1e61];

fn record(kind: u16, body: &[u8]) -> Vec<u8> {
    [&(body.len() as u16).to_le_bytes(), &kind.to_le_bytes(), body].concat()
}

/// A position, a texture point or a normal with one coordinate that is not 1.
fn entry(kind: u16, place: usize, coordinate: f64) -> Vec<u8> {
    let mut coordinates = vec![1.0; width(kind)];
    coordinates[place] = coordinate;
    record(kind, &coordinates.iter().flat_map(|x| x.to_le_bytes()).collect::<Vec<u8>>())
}

fn width(kind: u16) -> usize {
    [3, 2, 3][kind as usize - 1]
}

fn triangle(positions: [u32; 3]) -> Vec<u8> {
    let corners = positions.iter().flat_map(|p| [*p, MISSING, MISSING]).flat_map(u32::to_le_bytes);
    record(4, &std::iter::once(3).chain(corners).collect::<Vec<u8>>())
}

fn number(records: &[&[u8]]) -> u32 {
    panel_file::read(&records.concat()).err().unwrap_or(0)
}

/// Each kind of entry and each place in it.
fn places() -> impl Iterator<Item = (u16, usize)> {
    (1..=3).flat_map(|kind| (0..width(kind)).map(move |place| (kind, place)))
}

#[test]
fn the_reader_turns_down_what_is_not_finite() {
    let (end, good) = (record(0, &[]), entry(1, 0, 1.0));
    for (kind, place) in places() {
        for broken in BROKEN {
            let broken = entry(kind, place, f64::from_bits(broken));
            let file = [&good[..], &broken, &triangle([0; 3]), &end].concat();
            assert_eq!(panel_file::read(&file).err(), Some(14));
            assert_eq!(writing::clean(&file), Err(14));
            assert_eq!(sheet::sheet(&file), "refused 14\n");
        }
        for whole in WHOLE {
            assert_eq!(number(&[&entry(kind, place, whole), &end]), 0);
        }
    }
}

#[test]
fn a_file_is_refused_in_order() {
    let (end, good) = (record(0, &[]), entry(1, 0, 1.0));
    for (kind, place) in places() {
        let broken = entry(kind, place, f64::NAN);
        // In one record: the body cut, a wrong length; and the limit, at it and over it.
        assert_eq!(number(&[&broken[..broken.len() - 1]]), 11);
        assert_eq!(number(&[&record(kind, &[&broken[4..], &[0; 8][..]].concat()), &end]), 12);
        let whole = entry(kind, place, 0.5);
        assert_eq!(number(&[&whole.repeat(2_048), &broken, &end]), 14);
        assert_eq!(number(&[&whole.repeat(2_047), &broken, &end]), 14);
        assert_eq!(number(&[&whole.repeat(2_048), &whole, &broken, &end]), 1);
        // In another record: whichever comes first.
        for (other, fault) in [(12, record(6, &[])), (12, record(4, &[1])), (3, record(4, &[&[33][..], &[0; 396]].concat()))] {
            assert_eq!([number(&[&broken, &fault, &end]), number(&[&fault, &broken, &end])], [14, other]);
        }
        assert_eq!([number(&[&broken, &[0; 3]]), number(&[&broken])], [14, 14]);
        // Bytes after the end, and an index, are asked of all records.
        assert_eq!([number(&[&broken, &end, &[0]]), number(&[&end, &broken])], [14, 13]);
        assert_eq!([number(&[&triangle([9; 3]), &broken, &end]), number(&[&triangle([9; 3]), &good, &end])], [14, 5]);
    }
}

#[test]
fn the_writer_turns_it_down_after_5_and_before_9() {
    let number = |mesh: &Mesh, room: usize| {
        let question = Question { mesh: mesh.clone(), rooms: vec![room], ..Question::default() };
        reading::answer(Call::WritePanel, &question).number
    };
    let good = Mesh { positions: vec![0.5; 6], textures: vec![0.5; 4], normals: vec![0.5; 6], ..Mesh::default() }
        .with_faces(&[vec![[0; 4]; 3]]);
    let room = writing::length(&good);
    assert_eq!([number(&good, room), number(&good, room - 1)], [0, 9]);
    for place in 0..16 {
        for broken in BROKEN.map(f64::from_bits) {
            let mut mesh = good.clone();
            match place {
                0..=5 => mesh.positions[place] = broken,
                6..=9 => mesh.textures[place - 6] = broken,
                _ => mesh.normals[place - 10] = broken,
            }
            assert_eq!([number(&mesh, room), number(&mesh, room - 1), number(&mesh, 0)], [14; 3]);
            mesh.corners[0] = 2;
            assert_eq!([number(&mesh, room), number(&mesh, 0)], [5, 5]);
        }
    }
}
