//! Smoothing at its smallest, held to each of the three judges, and the numbers that it refuses by, each beside a question that is accepted.

use judge::mesh::{Corner, WIDTH};
use judge::reading::numbers::stated_rooms;
use judge::{reading, rust, Answer, Call, Count, Mesh, Numbers, Question, MISSING};

/// Triangles over as many positions as are named, with coordinates that are rounded at every step.
fn surface(faces: &[[u32; 3]]) -> Mesh {
    let count = faces.iter().flatten().max().map_or(0, |most| most + 1);
    let faces: Vec<Vec<Corner>> = faces.iter().map(|face| face.map(|p| [p, MISSING, MISSING, 0]).to_vec()).collect();
    Mesh { positions: (0..3 * count).map(|i| 1.0 / (3.0 + i as f64)).collect(), ..Mesh::default() }.with_faces(&faces)
}

/// With exact rooms and the Rust's own cosines.
fn question(mesh: Mesh) -> Question {
    let rooms = stated_rooms(Call::LoopSubdivision, &mesh);
    let [ones, twos] = rust::cosines();
    Question { mesh, ones, twos, rooms, ..Question::default() }
}

fn number(question: &Question) -> u32 {
    reading::answer(Call::LoopSubdivision, question).number
}

/// What all three judges say.
fn judged(faces: &[[u32; 3]]) -> (Vec<f64>, Vec<u32>, Vec<Count>) {
    let question = question(surface(faces));
    let answer = reading::answer(Call::LoopSubdivision, &question);
    for other in
        [rust::untouched::answer(Call::LoopSubdivision, &question), rust::ascending::answer(Call::LoopSubdivision, &question)]
    {
        assert_eq!(format!("{answer:?}"), format!("{:?}", other.unwrap()));
    }
    let Answer { lists, counts, .. } = answer;
    let mut lists = lists.into_iter();
    match (lists.next(), lists.next(), lists.next()) {
        (Some(Numbers::Floats(positions)), Some(Numbers::Words(corners)), Some(Numbers::Words(sizes))) => {
            assert!(sizes.iter().all(|size| *size == 3));
            (positions, corners, counts)
        }
        _ => panic!("positions, corners, sizes"),
    }
}

fn by_position(corners: &[u32]) -> Vec<u32> {
    corners.iter().step_by(WIDTH).copied().collect()
}

/// A fan of so many triangles around position 0, closed or open.
fn fan(blades: u32, closed: bool) -> Vec<[u32; 3]> {
    (0..blades).map(|k| [0, 1 + k, if closed && k + 1 == blades { 1 } else { 2 + k }]).collect()
}

#[test]
fn nothing() {
    let (positions, corners, counts) = judged(&[]);
    assert!(positions.is_empty() && corners.is_empty());
    assert_eq!(counts, [Count::Is(0); 3]);
}

/// Its corners stay; its edges are numbered by the order in which the Rust looks at them.
#[test]
fn one_triangle() {
    let (positions, corners, counts) = judged(&[[0, 1, 2]]);
    let old = surface(&[[0, 1, 2]]).positions;
    assert_eq!(positions[..9], old);
    let middle = |a: usize, b: usize, axis: usize| old[3 * a + axis] + (old[3 * b + axis] - old[3 * a + axis]) / 2.0;
    let middles: Vec<f64> =
        [(1, 2), (0, 2), (0, 1)].iter().flat_map(|(a, b)| (0..3).map(move |axis| middle(*a, *b, axis))).collect();
    assert_eq!(positions[9..], middles);
    assert_eq!(by_position(&corners), [0, 5, 4, 3, 2, 4, 3, 5, 1, 3, 4, 5]);
    assert_eq!(counts, [Count::Is(6), Count::Is(12), Count::Is(4)]);
}

/// Old corners keep texture, normal and mark, new ones have none; the Rust's own lists of both stay as they are.
#[test]
fn textures_and_normals() {
    let mut mesh = surface(&[[0, 1, 2]]);
    mesh.textures = vec![0.25; 8];
    mesh.normals = vec![0.75; 3];
    mesh.corners = vec![0, 3, 0, 7, 1, MISSING, MISSING, 0, 2, 1, MISSING, MISSING];
    let made = rust::untouched::loop_subdivision(&mesh);
    let whole: Vec<&[u32]> = made.corners.chunks(WIDTH).filter(|corner| corner[0] < 3).collect();
    assert_eq!(whole, [&[0, 3, 0, 7][..], &[2, 1, MISSING, MISSING], &[1, MISSING, MISSING, 0]]);
    assert!(made.corners.chunks(WIDTH).filter(|corner| corner[0] >= 3).all(|corner| corner[1..] == [MISSING, MISSING, 0]));
    let answer = reading::answer(Call::LoopSubdivision, &question(mesh.clone()));
    assert_eq!(format!("{:?}", answer), format!("{:?}", Answer::smoothed(made)));
}

#[test]
fn the_three_judges_agree() {
    judged(&[[0, 1, 2], [0, 2, 3], [0, 3, 1], [1, 3, 2]]);
    judged(&[[0, 1, 2], [2, 1, 0]]);
    // Openings that touch: a position with four hem edges, and with six; two solids that hang together at a point.
    judged(&[[0, 1, 2], [0, 3, 4]]);
    judged(&[[1, 0, 2], [3, 4, 0], [0, 5, 6], [2, 0, 7]]);
    judged(&[[0, 1, 2], [0, 2, 3], [0, 3, 1], [1, 3, 2], [0, 4, 5], [0, 5, 6], [0, 6, 4], [4, 6, 5]]);
    for blades in 1..=64 {
        judged(&fan(blades, false)[..blades.min(63) as usize]);
        if blades >= 3 {
            judged(&fan(blades, true));
        }
    }
}

#[test]
fn cosines_of_the_rust() {
    let [ones, twos] = rust::cosines();
    assert_eq!((ones.len(), twos.len()), (64, 64));
    assert_eq!((ones[0], twos[0], twos[1]), (-1.0, 1.0, -1.0));
    assert!(rust::has_its_cosines(&question(Mesh::default())));
    let changed = Question { twos: ones.clone(), ..question(Mesh::default()) };
    assert!(!rust::has_its_cosines(&changed));
}

/// A question with one thing changed.
fn with(faces: &[[u32; 3]], change: impl Fn(&mut Question)) -> u32 {
    let mut question = question(surface(faces));
    change(&mut question);
    number(&question)
}

const TWO: &[[u32; 3]] = &[[0, 1, 2], [2, 1, 3]];

#[test]
fn numbers_of_the_mesh() {
    let most = 2f64.powi(60);
    let above = f64::from_bits(most.to_bits() + 1);
    assert_eq!(with(TWO, |_| ()), 0);
    assert_eq!(with(TWO, |q| q.mesh.corners[0] = 4), 5);
    for (coordinate, number) in [(most, 0), (-most, 0), (above, 7), (-above, 7), (f64::NAN, 7), (f64::INFINITY, 7)] {
        assert_eq!(with(TWO, |q| q.mesh.positions[11] = coordinate), number);
        assert_eq!(with(TWO, |q| q.mesh.textures = vec![coordinate; 2]), 0);
        assert_eq!(with(TWO, |q| q.mesh.normals = vec![coordinate; 3]), 0);
    }
    let larger = |q: &mut Question| {
        q.mesh.corners.extend([0, MISSING, MISSING, 0]);
        q.mesh.sizes[1] = 4;
    };
    assert_eq!(with(TWO, larger), 15);
    assert_eq!(with(&[[0, 1, 1]], |_| ()), 16);
    assert_eq!(with(&[[0, 1, 0]], |_| ()), 16);
    assert_eq!(with(&[[0, 1, 3]], |_| ()), 16);
    assert_eq!(with(&[], |q| q.mesh.positions = vec![0.0; 3]), 16);
    assert_eq!(with(&[[0, 1, 2], [0, 1, 3]], |_| ()), 10);
    assert_eq!(with(&[[0, 1, 2], [1, 0, 3], [0, 1, 4]], |_| ()), 10);
}

#[test]
fn numbers_of_the_cosines() {
    let above = f64::from_bits(1f64.to_bits() + 1);
    for place in [0, 5, 63] {
        for (cosine, number) in
            [(1.0, 0), (-1.0, 0), (-0.0, 0), (above, 17), (-above, 17), (f64::NAN, 17), (f64::NEG_INFINITY, 17)]
        {
            assert_eq!(with(TWO, |q| q.ones[place] = cosine), number);
            assert_eq!(with(TWO, |q| q.twos[place] = cosine), number);
        }
    }
    for length in [0, 63, 65] {
        assert_eq!(with(TWO, |q| q.ones.resize(length, 0.5)), 17);
        assert_eq!(with(TWO, |q| q.twos.resize(length, 0.5)), 17);
        assert_eq!(with(&[], |q| q.twos.resize(length, 0.5)), 17);
    }
    assert_eq!([64, 65].map(|blades| with(&fan(blades, true), |_| ())), [0, 17]);
    assert_eq!([63, 64].map(|blades| with(&fan(blades, false), |_| ())), [0, 17]);
}

#[test]
fn limits_and_rooms() {
    let apart = |count: u32| -> Vec<[u32; 3]> { (0..count).map(|k| [3 * k, 3 * k + 1, 3 * k + 2]).collect() };
    assert_eq!([341, 342].map(|count| with(&apart(count), |_| ())), [0, 1]);
    // The most positions that a result within the limits can have.
    let full = reading::answer(Call::LoopSubdivision, &question(surface(&apart(341))));
    assert_eq!(full.counts, [Count::Is(2_046), Count::Is(4_092), Count::Is(1_364)]);
    assert_eq!(question(surface(TWO)).rooms, [3 * (4 + 6), 4 * 24, 8]);
    for list in 0..3 {
        assert_eq!(with(TWO, |q| q.rooms[list] -= 1), 9);
        assert_eq!(with(TWO, |q| q.rooms[list] += 1), 0);
    }
}

/// Where several numbers could be given: 7, 15, 16, 10, 17, 1, 9.
#[test]
fn the_order_of_the_numbers() {
    let mut question = question(surface(&fan(342, false)));
    question.mesh.positions.push(f64::NAN);
    question.mesh.positions.extend([0.0; 2]);
    question.mesh.sizes[341] = 4;
    question.mesh.corners.extend([0, MISSING, MISSING, 0]);
    question.mesh.corners[WIDTH] = 0;
    question.mesh.corners.splice(3 * WIDTH..6 * WIDTH, [0, 3, 4].iter().flat_map(|p| [*p, MISSING, MISSING, 0]));
    question.ones.clear();
    question.rooms = vec![0; 3];
    let mut numbers = vec![number(&question)];
    question.mesh.positions[3 * 344] = 0.0;
    numbers.push(number(&question));
    question.mesh.sizes[341] = 3;
    question.mesh.corners.truncate(3 * WIDTH * 342);
    numbers.push(number(&question));
    question.mesh.positions.truncate(3 * 344);
    numbers.push(number(&question));
    question.mesh.corners[WIDTH] = 1;
    numbers.push(number(&question));
    question.mesh.corners.splice(3 * WIDTH..6 * WIDTH, [0, 2, 3].iter().flat_map(|p| [*p, MISSING, MISSING, 0]));
    numbers.push(number(&question));
    // Fewer neighbours: triangles that hang together in a row.
    let row: Vec<[u32; 3]> = (0..342).map(|k| if k % 2 == 0 { [k, k + 1, k + 2] } else { [k + 1, k, k + 2] }).collect();
    question.mesh = surface(&row);
    numbers.push(number(&question));
    question.ones = question.twos.clone();
    numbers.push(number(&question));
    question.mesh = surface(&row[..341]);
    numbers.push(number(&question));
    question.rooms = stated_rooms(Call::LoopSubdivision, &question.mesh);
    numbers.push(number(&question));
    assert_eq!(numbers, [7, 15, 16, 16, 10, 17, 17, 1, 9, 0]);
}
