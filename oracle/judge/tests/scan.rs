//! 'Read the scanner's own file', the eighth request of document 02: what a scan is read as, and the order of its refusals.

use judge::mesh::WIDTH;
use judge::reading::numbers::stated_rooms;
use judge::reading::scan::{read, sheet};
use judge::reading::{self, numbers::mesh_number};
use judge::{Call, Mesh, Question, MISSING};

type Triangle = [[f32; 3]; 3];

/// Not a number, quiet and signalling, of either sign, with digits of its own; and both infinities.
const BROKEN: [u32; 9] =
    [0x7fc0_0000, 0xffc0_0000, 0x7f80_0001, 0xff80_0001, 0x7fbf_ffff, 0x7fff_ffff, 0xffff_ffff, 0x7f80_0000, 0xff80_0000];

/// Both ends of what is finite, and of the subnormals.
const WHOLE: [u32; 9] = [0, 1, 0x007f_ffff, 0x0080_0000, 0x7f7f_ffff, 0x8000_0001, 0x807f_ffff, 0x8080_0000, 0xff7f_ffff];

const FLAT: Triangle = [[0.0, 0.0, 0.0], [1.0, 0.0, 0.0], [0.0, 1.0, 0.0]];

/// A scan whose normals and two-byte fields have these bits.
fn scan_with(normal: u32, field: u16, triangles: &[Triangle]) -> Vec<u8> {
    let mut file = vec![7; 80];
    file.extend((triangles.len() as u32).to_le_bytes());
    for triangle in triangles {
        file.extend(normal.to_le_bytes().repeat(3));
        file.extend(triangle.iter().flatten().flat_map(|x| x.to_bits().to_le_bytes()));
        file.extend(field.to_le_bytes());
    }
    file
}

fn scan(triangles: &[Triangle]) -> Vec<u8> {
    scan_with(0, 0, triangles)
}

fn number(file: &[u8]) -> u32 {
    read(file).err().unwrap_or(0)
}

/// The positions of the corners, and the bits of the coordinates.
fn taken(file: &[u8]) -> (Vec<u32>, Vec<u64>) {
    let mesh = read(file).unwrap();
    assert_eq!(mesh_number(&mesh), 0);
    assert!(mesh.textures.is_empty() && mesh.normals.is_empty());
    assert!(mesh.corners.chunks(WIDTH).all(|corner| corner[1..] == [MISSING, MISSING, 0]));
    assert!(mesh.sizes.iter().all(|size| *size == 3));
    (mesh.corners.iter().step_by(WIDTH).copied().collect(), mesh.positions.iter().map(|x| x.to_bits()).collect())
}

/// So many triangles over so many different points: point i has i for its bits, so that most are subnormal.
fn many(triangles: usize, points: usize) -> Vec<u8> {
    let point = |i: usize| [f32::from_bits((i % points) as u32), 0.0, 1.0];
    scan(&(0..triangles).map(|k| [point(3 * k), point(3 * k + 1), point(3 * k + 2)]).collect::<Vec<_>>())
}

#[test]
fn points_with_equal_bits_are_one_position() {
    let other = [[0.0, 1.0, 0.0], [1.0, 0.0, 0.0], [1.0, 1.0, 0.0]];
    let one = 1f64.to_bits();
    assert_eq!(taken(&scan(&[FLAT, other])), (vec![0, 1, 2, 2, 1, 3], vec![0, 0, 0, one, 0, 0, 0, one, 0, one, one, 0]));
    assert_eq!(taken(&scan(&[])), (vec![], vec![]));
    // Near is not equal.
    let next = f32::from_bits(1f32.to_bits() + 1);
    assert_eq!(taken(&scan(&[[[1.0; 3], [1.0, 1.0, next], [1.0; 3]]])).0, [0, 1, 0]);
}

#[test]
fn a_negative_zero_is_read_as_zero() {
    let turned = FLAT.map(|point| point.map(|x| if x == 0.0 { -0.0 } else { x }));
    for triangles in [[FLAT, turned], [turned, FLAT], [turned, turned]] {
        assert_eq!(taken(&scan(&triangles)), taken(&scan(&[FLAT, FLAT])));
    }
}

#[test]
fn folded_triangles_are_kept_for_the_removal() {
    let folded = [[0.0; 3], [1.0; 3], [0.0; 3]];
    assert_eq!(taken(&scan(&[folded, [[2.0; 3]; 3]])).0, [0, 1, 0, 2, 2, 2]);
    assert_eq!(sheet(&scan(&[folded, [[2.0; 3]; 3]])), "mesh 0 0 0 0\nverdict Closed\npanels 0\n");
    assert_eq!(sheet(&scan(&[folded, FLAT])), "mesh 3 0 0 1\nverdict Oriented\npanels 1\nhem 0 1 2\n");
}

#[test]
fn what_is_passed_over_changes_nothing() {
    let plain = taken(&scan(&[FLAT]));
    for bits in BROKEN.into_iter().chain(WHOLE) {
        let mut file = scan_with(bits, bits as u16, &[FLAT]);
        assert_eq!(taken(&file), plain);
        file[..80].fill(bits as u8);
        file[..5].copy_from_slice(b"solid");
        assert_eq!(taken(&file), plain);
    }
}

#[test]
fn widening_loses_nothing() {
    // By whole numbers: the digits, with a leading one but in a subnormal, times a power of two.
    for exponent in 0..255u32 {
        for digits in [0, 1, 2, 0x0040_0000, 0x0055_5555, 0x007f_fffe, 0x007f_ffff] {
            let whole = if exponent == 0 { digits } else { digits | 1 << 23 };
            let power = exponent.max(1) as i32 - 150;
            let value = whole as f64 * 2f64.powi(power);
            for sign in [0, 1 << 31] {
                let bits = sign | exponent << 23 | digits;
                let file = scan(&[[[f32::from_bits(bits), 1.0, 1.0], [2.0; 3], [3.0; 3]]]);
                let wanted = if sign == 0 || whole == 0 { value } else { -value };
                assert_eq!(taken(&file).1[0], wanted.to_bits(), "{bits:#x}");
            }
        }
    }
    assert_eq!(taken(&scan(&[[[f32::from_bits(1), 0.0, 0.0]; 3]])).1[0], 2f64.powi(-149).to_bits());
}

#[test]
fn a_point_that_is_not_finite_is_turned_down() {
    for place in 0..9 {
        for broken in BROKEN {
            let mut triangle = FLAT;
            triangle[place / 3][place % 3] = f32::from_bits(broken);
            assert_eq!([number(&scan(&[triangle])), number(&scan(&[FLAT, FLAT, triangle]))], [14, 14]);
            assert_eq!(sheet(&scan(&[triangle])), "refused 14\n");
        }
        for whole in WHOLE {
            let mut triangle = FLAT;
            triangle[place / 3][place % 3] = f32::from_bits(whole);
            assert_eq!(number(&scan(&[triangle])), 0);
        }
    }
}

#[test]
fn both_sides_of_each_length() {
    assert_eq!([number(&[]), number(&[0; 83]), number(&[0; 84]), number(&[0; 85])], [11, 11, 0, 13]);
    for count in [1, 2, 1_364, 1_365] {
        let file = many(count, 3);
        let longer = [&file[..], &[0]].concat();
        assert_eq!([number(&file[..file.len() - 1]), number(&file), number(&longer)], [11, 0, 13]);
        assert_eq!(number(&[&file[..], &[0; 50]].concat()), 13);
        assert_eq!(number(&file[..file.len() - 50]), 11);
    }
    // The count over its limit, however long the file is: also where 84 + 50 count is the length in 32 bits.
    assert_eq!([number(&many(1_366, 3)), number(&many(1_366, 3)[..84]), number(&many(1_367, 3)[..99])], [1, 1, 1]);
    for count in [85_899_346u32, 1 << 31, u32::MAX, 1_366 << 8] {
        for length in [84, 88, 134] {
            let mut file = vec![0; length];
            file[80..84].copy_from_slice(&count.to_le_bytes());
            assert_eq!(number(&file), 1);
        }
    }
}

#[test]
fn both_sides_of_the_most_positions() {
    for triangles in [683, 1_365] {
        assert_eq!([number(&many(triangles, 2_048)), number(&many(triangles, 2_049))], [0, 1]);
    }
    assert_eq!([number(&many(1_365, 4_095)), number(&many(682, 2_046))], [1, 0]);
}

#[test]
fn a_scan_is_refused_in_order() {
    let broken = |mut file: Vec<u8>| {
        let last = file.len() - 2;
        file[last - 4..last].copy_from_slice(&f32::NAN.to_bits().to_le_bytes());
        file
    };
    // The length before 14, 14 before too many positions, wherever it stands; the count before both.
    assert_eq!(number(&broken(many(2, 3))), 14);
    assert_eq!(number(&broken(many(2, 3))[..183]), 11);
    assert_eq!(number(&[broken(many(2, 3)), vec![0]].concat()), 13);
    assert_eq!([number(&broken(many(683, 2_049))), number(&broken(many(1_365, 4_095)))], [14, 14]);
    assert_eq!(number(&broken(many(1_366, 4_098))), 1);
}

#[test]
fn room_is_asked_first_and_at_the_full_limits() {
    let stated = stated_rooms(Call::ReadScan, &Mesh::default());
    assert_eq!(stated, [6_144, 4_096, 6_144, 16_384, 1_365]);
    let number = |file: &[u8], rooms: &[usize]| {
        let question = Question { file: file.to_vec(), rooms: rooms.to_vec(), ..Question::default() };
        reading::answer(Call::ReadScan, &question).number
    };
    for file in [&scan(&[FLAT])[..], &[], &many(1_366, 3), &many(2, 3)[..100]] {
        for short in 0..5 {
            let mut rooms = stated.clone();
            rooms[short] -= 1;
            assert_eq!(number(file, &rooms), 9);
        }
    }
    assert_eq!(number(&scan(&[FLAT]), &stated), 0);
}

#[test]
fn a_sheet_of_any_length() {
    let tube = "mesh 4 0 0 2\nverdict Oriented\npanels 1\nhem 0 1 2 3\n";
    let square = [FLAT[0], FLAT[1], [1.0, 1.0, 0.0], FLAT[2]];
    let file = scan(&[[square[0], square[1], square[2]], [square[0], square[2], square[3]]]);
    assert_eq!(sheet(&file), tube);
    assert_eq!([sheet(&[]), sheet(&[0; 70_000])], ["refused 11\n", "refused 13\n"]);
    assert_eq!(sheet(&[many(1_365, 3), vec![0]].concat()), "refused 13\n");
    assert_eq!(sheet(&many(1_366, 3)), "refused 1\n");
    let room = |room: usize| Question { file: file.clone(), rooms: vec![room], ..Question::default() };
    let answered = |question: &Question| reading::answer(Call::ScanSheet, question).number;
    assert_eq!([answered(&room(65_536)), answered(&room(65_535))], [0, 9]);
}
