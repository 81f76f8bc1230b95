//! Questions to smoothing: surfaces at their smallest and some at random, both sides of each of its numbers, and their order.

use crate::subjects;
use comparer::random::Random;
use comparer::surfaces;
use judge::mesh::{Corner, WIDTH};
use judge::reading::numbers::{stated_rooms, ATTRIBUTES, CORNERS, FACES};
use judge::{reading, rust, Call, Mesh, Question, MISSING};

const SEED: u64 = 21;

/// Triangles by positions.
type Triangles = Vec<[u32; 3]>;

/// How many positions are named.
fn positions(triangles: &[[u32; 3]]) -> usize {
    triangles.iter().flatten().max().map_or(0, |last| *last as usize + 1)
}

/// With coordinates that are rounded at nearly every step, and corners that are told apart.
fn surface(triangles: &[[u32; 3]]) -> Mesh {
    let coordinate = |i: usize| (i * i % 37) as f64 / 7.0 - (i % 5) as f64 / 3.0;
    let corners = 3 * triangles.len() as u32;
    let index = |place: u32, every: u32| if place % every == 1 { MISSING } else { place % 6 };
    let mut places = 0..corners;
    let mut corner = |position: u32| -> Corner {
        let place = places.next().unwrap();
        [position, index(place, 4), index(place, 5), if place % 3 == 2 { 0 } else { place + 1 }]
    };
    let faces: Vec<Vec<Corner>> = triangles.iter().map(|triangle| triangle.iter().map(|p| corner(*p)).collect()).collect();
    Mesh {
        positions: (0..3 * positions(triangles)).map(coordinate).collect(),
        textures: vec![0.5; if triangles.is_empty() { 0 } else { 12 }],
        normals: vec![-0.25; if triangles.is_empty() { 0 } else { 18 }],
        ..Mesh::default()
    }
    .with_faces(&faces)
}

/// The same with no texture, no normal and all coordinates equal: it takes few words.
fn dull(triangles: &[[u32; 3]]) -> Mesh {
    let faces: Vec<Vec<Corner>> = triangles.iter().map(|t| t.map(|p| [p, MISSING, MISSING, 0]).to_vec()).collect();
    Mesh { positions: vec![0.25; 3 * positions(triangles)], ..Mesh::default() }.with_faces(&faces)
}

/// The stated rooms, or those of a mesh at the full limits: what needs more is refused before its rooms are looked at.
fn rooms(mesh: &Mesh) -> Vec<usize> {
    let full = [3 * ATTRIBUTES, WIDTH * CORNERS, FACES];
    stated_rooms(Call::LoopSubdivision, mesh).into_iter().zip(full).map(|(stated, full)| stated.min(full)).collect()
}

/// With the Rust's own cosines and exact rooms.
fn asked(mesh: Mesh) -> Question {
    let rooms = rooms(&mesh);
    let [ones, twos] = rust::cosines();
    Question { mesh, ones, twos, rooms, ..Question::default() }
}

/// A question with one thing changed; the rooms are exact for what it is then.
fn with(mesh: Mesh, change: impl FnOnce(&mut Question)) -> Question {
    let mut question = asked(mesh);
    change(&mut question);
    question.rooms = rooms(&question.mesh);
    question
}

/// With no room at all.
fn short(question: Question) -> Question {
    Question { rooms: vec![0; 3], ..question }
}

fn above(x: f64) -> f64 {
    f64::from_bits(x.to_bits() + 1)
}

fn fan(blades: u32, closed: bool) -> Triangles {
    (0..blades).map(|k| [0, 1 + k, if closed && k + 1 == blades { 1 } else { 2 + k }]).collect()
}

/// Each triangle on the edge of the one before.
fn row(triangles: u32) -> Triangles {
    (0..triangles).map(|k| if k % 2 == 0 { [k, k + 1, k + 2] } else { [k + 1, k, k + 2] }).collect()
}

/// Squares cut in two, so many wide and high, closed to a tube or to a ring of tube where they are as wide, and as high, as there are columns and rows.
fn squares(wide: u32, high: u32, columns: u32, rows: u32) -> Triangles {
    let at = |x: u32, y: u32| y % rows * columns + x % columns;
    let cells = (0..high).flat_map(|y| (0..wide).map(move |x| (x, y)));
    cells.flat_map(|(x, y)| [[at(x, y), at(x + 1, y), at(x + 1, y + 1)], [at(x, y), at(x + 1, y + 1), at(x, y + 1)]]).collect()
}

/// Surfaces that show a rule at its smallest; with rooms that are exact, or longer.
pub fn smallest() -> Vec<Question> {
    let mut ringed = squares(3, 3, 4, 4);
    ringed.drain(8..10);
    let all: Vec<Triangles> = vec![
        vec![],
        vec![[0, 1, 2]],
        vec![[2, 0, 1]],
        vec![[0, 1, 2], [2, 1, 3]],
        // A triangle and its back; closed solids; two of them at one point.
        vec![[0, 1, 2], [2, 1, 0]],
        vec![[0, 1, 2], [0, 2, 3], [0, 3, 1], [1, 3, 2]],
        vec![[0, 2, 4], [2, 1, 4], [1, 3, 4], [3, 0, 4], [2, 0, 5], [1, 2, 5], [3, 1, 5], [0, 3, 5]],
        vec![[0, 1, 2], [0, 2, 3], [0, 3, 1], [1, 3, 2], [0, 4, 5], [0, 5, 6], [0, 6, 4], [4, 6, 5]],
        // Openings that touch: four hem edges at a position, and six; with an inner edge there.
        vec![[0, 1, 2], [0, 3, 4]],
        vec![[1, 0, 2], [3, 4, 0], [0, 5, 6], [2, 0, 7]],
        // An inner position, by every small number of neighbours; an edge between two positions of the boundary; an edge from the boundary to an inner one, each way.
        fan(3, true),
        fan(5, true),
        fan(4, false),
        fan(6, true).iter().map(|triangle| triangle.map(|position| 6 - position)).collect(),
        row(7),
        squares(3, 3, 4, 4),
        ringed,
        squares(4, 2, 4, 3),
        squares(3, 3, 3, 3),
    ];
    let mut questions: Vec<Question> = all.iter().map(|triangles| asked(surface(triangles))).collect();
    questions.iter_mut().enumerate().for_each(|(i, question)| question.rooms.iter_mut().for_each(|room| *room += i % 3));
    questions
}

/// Random ones that are accepted, by the Rust's cosines; the last few by other ones.
pub fn at_random() -> Vec<Question> {
    let is_accepted = |question: &Question| reading::answer(Call::LoopSubdivision, question).number == 0;
    let questions = || (0..).map(|index| surfaces::question(&Random::of(SEED, index))).filter(is_accepted);
    let of_size = |least: usize, most: usize| move |question: &Question| (least..=most).contains(&question.mesh.sizes.len());
    let small = questions().filter(of_size(2, 12)).filter(rust::has_its_cosines).take(16);
    let larger = questions().filter(of_size(30, 40)).filter(rust::has_its_cosines).take(1);
    let other = questions().filter(of_size(4, 12)).filter(|question| !rust::has_its_cosines(question)).take(3);
    small.chain(larger).chain(other).collect()
}

/// 1 to 5, and 7 of positions alone: at 2^60, above it, not finite; at each place, used first and last.
pub fn of_the_mesh() -> Vec<Question> {
    let mut questions: Vec<Question> = subjects::both_sides().into_iter().map(asked).collect();
    let (most, two) = (2f64.powi(60), || dull(&[[0, 1, 2], [2, 1, 3]]));
    let odd = [most, -most, above(most), -above(most), f64::MAX, f64::NAN, f64::INFINITY, f64::NEG_INFINITY];
    for (i, coordinate) in odd.into_iter().enumerate() {
        questions.push(with(two(), |q| q.mesh.positions[i % 3] = coordinate));
        questions.push(with(two(), |q| q.mesh.positions[11 - i % 3] = coordinate));
    }
    for odd in [above(most), f64::NAN, f64::INFINITY] {
        questions.push(with(two(), |q| q.mesh.textures = vec![odd; 2]));
        questions.push(with(two(), |q| q.mesh.normals = vec![odd; 3]));
    }
    questions
}

/// 15: a face isn't a triangle; 3 where it has 301 corners. 16: a face is folded, or a position is in no face. 10: the verdict.
pub fn of_the_faces() -> Vec<Question> {
    let mut questions: Vec<Question> =
        [&[4][..], &[3, 4], &[3, 3, 5], &[32], &[33], &[300], &[301]].iter().map(|sizes| with(of_sizes(sizes), |_| ())).collect();
    let folded = [[0, 0, 1], [0, 1, 1], [1, 0, 1], [0, 0, 0]];
    questions.extend(folded.iter().map(|face| asked(dull(&[*face]))));
    questions.push(asked(dull(&[[0, 1, 2], [2, 1, 3], [3, 1, 3]])));
    // Unused: a position alone, the first, one between, the last.
    questions.push(with(Mesh::default(), |q| q.mesh.positions = vec![0.25; 3]));
    questions.extend([[1, 2, 3], [0, 2, 3]].iter().map(|face| asked(dull(&[*face]))));
    questions.push(with(dull(&[[0, 1, 2]]), |q| q.mesh.positions.extend([0.25; 3])));
    // Irregular, Regular by two faces and by one of many, and what is neither.
    let weak: [&[[u32; 3]]; 5] = [
        &[[0, 1, 2], [1, 0, 3], [0, 1, 4]],
        &[[0, 1, 2], [0, 1, 3]],
        &[[0, 1, 2], [0, 1, 2]],
        &[[0, 1, 2], [0, 2, 3], [0, 3, 1], [1, 2, 3]],
        &[[0, 1, 2], [0, 2, 3], [0, 3, 1], [1, 3, 2], [0, 1, 4]],
    ];
    questions.extend(weak.iter().map(|triangles| asked(dull(triangles))));
    questions
}

/// Faces of these sizes, each over positions of its own.
fn of_sizes(sizes: &[u32]) -> Mesh {
    let corners = sizes.iter().sum::<u32>();
    Mesh {
        positions: vec![0.25; 3 * corners as usize],
        corners: (0..corners).flat_map(|p| [p, MISSING, MISSING, 0]).collect(),
        sizes: sizes.to_vec(),
        ..Mesh::default()
    }
}

/// 17, of the cosines: lengths, and values at and beyond both ends, first, last and between; in one list and in the other.
pub fn of_the_cosines() -> Vec<Question> {
    let (two, half) = (|| dull(&[[0, 1, 2], [2, 1, 3]]), vec![0.5; 64]);
    let mut questions = vec![];
    let mut put = |list: Vec<f64>, mesh: fn() -> Mesh| {
        questions.push(with(mesh(), |q| (q.ones, q.twos) = (list.clone(), vec![0.5; 64])));
        questions.push(with(mesh(), |q| (q.ones, q.twos) = (vec![0.5; 64], list)));
    };
    for length in [0, 1, 63, 64, 65] {
        put(vec![0.5; length], two);
    }
    put(vec![0.5; 63], Mesh::default);
    for value in [1.0, -1.0, above(1.0), -above(1.0), f64::NAN, f64::INFINITY, f64::NEG_INFINITY, 2.0] {
        put(vec![value; 64], two);
        for place in [0, 2, 63] {
            let mut list = half.clone();
            list[place] = value;
            put(list, two);
        }
    }
    // What is taken can be seen: every list has an effect on a surface with an inner edge, and with an inner position.
    for value in [1.0, -1.0, -0.0, 0.125] {
        put(vec![value; 64], || surface(&fan(4, true)));
        put(vec![value; 64], || surface(&[[0, 1, 2], [2, 1, 3]]));
    }
    questions
}

/// 17, of neighbours, and 1, of the result: both sides; and 17 before 1, 1 before 9.
pub fn of_the_limits() -> Vec<Question> {
    vec![
        asked(surface(&fan(64, true))),
        asked(dull(&fan(65, true))),
        asked(dull(&fan(63, false))),
        asked(dull(&fan(64, false))),
        asked(dull(&row(341))),
        asked(dull(&row(342))),
        with(dull(&row(342)), |q| q.twos[63] = f64::NAN),
        short(asked(dull(&row(342)))),
    ]
}

/// Whose rooms are lent one short: accepted, and over a limit, which comes before 9.
pub fn for_short_rooms() -> Vec<Question> {
    vec![asked(dull(&[[0, 1, 2]])), asked(surface(&[[0, 1, 2], [2, 1, 3]])), asked(dull(&fan(65, true)))]
}

/// Two numbers or more that could be given, next to each other in their order: 7, 15, 16, 10, 17, 1, 9.
pub fn ordered() -> Vec<Question> {
    let boundless = |q: &mut Question| q.mesh.positions[0] = f64::NAN;
    let larger = || of_sizes(&[3, 4]);
    let crossing = || dull(&[[0, 1, 2], [0, 1, 3]]);
    let mut questions = vec![
        // 5 before 7, 7 before each of the others.
        with(dull(&[[0, 1, 2]]), |q| {
            boundless(q);
            q.mesh.corners[0] = 3;
        }),
        with(larger(), boundless),
        with(dull(&[[0, 1, 1]]), boundless),
        with(crossing(), boundless),
        // 15 before 16 and 10.
        with(larger(), |q| q.mesh.corners[0] = 1),
        with(larger(), |q| q.mesh.positions.extend([0.25; 3])),
        with(larger(), |q| q.mesh.corners[3 * WIDTH..].copy_from_slice(&[0, 1, 3, 2].map(|p| [p, MISSING, MISSING, 0]).concat())),
        // 16 before 10, folded and unused.
        asked(dull(&[[0, 1, 2], [0, 1, 2], [0, 0, 1]])),
        with(crossing(), |q| q.mesh.positions.extend([0.25; 3])),
        // 10 before 17 of either kind.
        with(crossing(), |q| q.ones.clear()),
        asked(dull(&[fan(65, true), vec![[0, 1, 2]]].concat())),
    ];
    // 9 behind all of them.
    let refused = [larger(), dull(&[[0, 1, 1]]), crossing(), dull(&fan(65, true))];
    questions.extend(refused.into_iter().map(|mesh| short(asked(mesh))));
    questions.push(short(with(dull(&[[0, 1, 2]]), boundless)));
    questions.push(short(with(dull(&[[0, 1, 2]]), |q| q.ones.push(0.5))));
    questions
}
