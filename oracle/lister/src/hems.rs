//! Questions to the list of hems and to the hem sheet: covers with triples, roots at both sides of a whole number, both sides of each number, and their
//! order.

use crate::panel_files::{attribute, face, large_face, record, triangle, END};
use crate::record::File;
use crate::{subjects, touching};
use comparer::random::Random;
use comparer::triples;
use judge::reading::hems::{sheet, whole_root, FARTHEST, FILE};
use judge::reading::numbers::stated_rooms;
use judge::reading::{self, writing};
use judge::{Call, Mesh, Question, MISSING};
use std::collections::BTreeSet;

const SEED: u64 = 34;

/// How far apart two coordinates can be.
const WIDEST: u64 = 2 * FARTHEST as u64;

/// Roots: small ones, those about which 32 bits end, and the longest edge there can be. No number that four divides is among them: one less than its square is
/// no sum of three squares.
const ROOTS: [u64; 10] = [1, 3, 5, 101, 46_341, 65_535, 65_537, 1_999_999, 2_828_427, 3_464_101];

/// With exact rooms.
fn asked(mesh: Mesh, triples: Vec<i32>) -> Question {
    let rooms = stated_rooms(Call::ListHems, &mesh);
    Question { mesh, triples, rooms, ..Question::default() }
}

/// Two triangles that meet at an edge, beside one that is apart, and a position that no corner uses.
fn cover() -> Mesh {
    let mut mesh = subjects::by_positions(&[&[0, 1, 2], &[2, 1, 3], &[4, 5, 6]]);
    mesh.positions = vec![0.25; 3 * 8];
    mesh
}

/// Its triples.
fn drawn() -> Vec<i32> {
    (0..8).flat_map(|i| [30 * i, 40 * (i % 2), -120 * (i % 3)]).collect()
}

/// Covers that are listed: the examples, those whose hems touch, one with a long hem, and triples of each kind; with rooms that are exact or longer.
pub fn listed() -> Vec<Question> {
    let meshes = subjects::examples().into_iter().chain(touching::meshes());
    let mut questions: Vec<Question> = vec![];
    for (i, mesh) in meshes.enumerate() {
        let triples = triples::list(&Random::of(SEED, i as u64), mesh.positions.len());
        let mut question = asked(dull(mesh), triples);
        question.rooms.iter_mut().for_each(|room| *room += i % 3);
        questions.push(question);
    }
    questions.push(asked(cover(), drawn()));
    questions.push(asked(triples::long_hem(), triples::apart()));
    questions.extend(roots());
    questions
}

/// The same with all coordinates equal: they are not looked at, and take few words then.
fn dull(mut mesh: Mesh) -> Mesh {
    mesh.positions.fill(0.25);
    mesh.textures.fill(0.5);
    mesh.normals.fill(1.5);
    mesh
}

/// A triangle with an edge, and back, whose squared distance is a square, or one less, or one more, or as long as the root allows.
fn roots() -> Vec<Question> {
    let squares = ROOTS.iter().flat_map(|root| [root * root - 1, root * root, root * root + 1, root * root + 2 * root]);
    let sides: BTreeSet<[u64; 3]> = squares.filter_map(sides).chain([[WIDEST; 3]]).collect();
    let triples = |sides: [u64; 3]| {
        let near = sides.map(|side| -((side / 2) as i32));
        let far = sides.map(|side| (side - side / 2) as i32);
        [near, far, near].concat()
    };
    let mesh = dull(subjects::by_positions(&[&[0, 1, 2]]));
    sides.into_iter().map(|sides| asked(mesh.clone(), triples(sides))).collect()
}

/// Three sides whose squares add up to this, the longest first, as near to each other as it goes; none where there are none that are narrow enough.
fn sides(square: u64) -> Option<[u64; 3]> {
    let root = |square: u64| whole_root(square as u128);
    let most = root(square).min(WIDEST);
    (root(square / 3)..=most).take(300).find_map(|a| {
        let rest = square - a * a;
        let found = (root(rest / 2)..=root(rest).min(a))
            .take(60_000)
            .find(|b| root(rest - b * b) * root(rest - b * b) == rest - b * b)?;
        Some([a, found, root(rest - found * found)])
    })
}

/// Numbers 1 to 5, and the meshes that just do not earn them, with as many triples as positions.
pub fn of_the_mesh() -> Vec<Question> {
    let of = |mesh: Mesh| {
        let triples = vec![7; mesh.positions.len()];
        asked(mesh, triples)
    };
    subjects::both_sides().into_iter().map(of).collect()
}

/// Both sides of 18 and of 19: lengths, and each place of the first triple, of the last one and of one that no corner uses.
pub fn of_the_triples() -> Vec<Question> {
    let lengths = [0, 3, 21, 22, 23, 24, 25, 26, 27, 48].map(|length| asked(cover(), vec![5; length]));
    let none = [0, 1, 3].map(|length| asked(Mesh::default(), vec![0; length]));
    let mut questions: Vec<Question> = lengths.into_iter().chain(none).collect();
    for place in [0, 1, 2, 11, 18, 21, 22, 23] {
        let far = [FARTHEST, -FARTHEST, FARTHEST + 1, -FARTHEST - 1, i32::MAX, i32::MIN];
        questions.extend(far.map(|coordinate| {
            let mut triples = vec![0; 24];
            triples[place] = coordinate;
            asked(cover(), triples)
        }));
    }
    questions
}

/// A mesh with rooms that are exact: each is then lent one short.
pub fn for_short_rooms() -> Vec<Question> {
    vec![asked(cover(), drawn()), asked(dull(subjects::by_positions(&[&[0, 1, 2]])), vec![1; 9])]
}

/// Numbers that could both be given: what comes first is left out step by step.
pub fn ordered() -> Vec<Question> {
    let irregular = || dull(subjects::by_positions(&[&[0, 1, 2], &[0, 1, 2], &[0, 1, 2]]));
    let regular = || dull(subjects::by_positions(&[&[0, 1, 2], &[0, 1, 3]]));
    let mut questions = vec![];
    for mesh in [irregular(), regular()] {
        let positions = mesh.positions.len();
        let mut beyond = vec![0; positions];
        beyond[positions - 1] = -FARTHEST - 1;
        let mut off = mesh.clone();
        off.corners[4] = positions as u32;
        let cut = beyond[1..].to_vec();
        let steps =
            [(off, cut.clone(), 0), (mesh.clone(), cut, 0), (mesh.clone(), beyond, 0), (mesh.clone(), vec![0; positions], 0)];
        questions
            .extend(steps.into_iter().map(|(mesh, triples, room)| Question { rooms: vec![room; 3], ..asked(mesh, triples) }));
        questions.push(asked(mesh, vec![0; positions]));
    }
    // Lists that are no mesh, with triples that do not match and no room.
    for change in [
        |mesh: &mut Mesh| mesh.positions.truncate(23),
        |mesh: &mut Mesh| mesh.sizes[0] = 2,
        |mesh: &mut Mesh| mesh.corners[0] = 8,
    ] {
        let mut mesh = cover();
        change(&mut mesh);
        questions.push(Question { mesh, triples: vec![i32::MIN; 2], rooms: vec![0; 3], ..Question::default() });
    }
    questions
}

/// A whole input: count, panel file, triples.
fn input(panel: &[u8], triples: &[i32]) -> Vec<u8> {
    let triples: Vec<u8> = triples.iter().flat_map(|coordinate| coordinate.to_le_bytes()).collect();
    [&(panel.len() as u32).to_le_bytes(), panel, &triples].concat()
}

/// Inputs of the hem sheet at both sides of each refusal; the first has hems.
pub fn files() -> Vec<File> {
    let cover = writing::write(&cover());
    let whole = input(&cover, &drawn());
    let positions = |count: usize| attribute(1, &[0.0; 3]).repeat(count);
    let faces = |faces: &[Vec<u8>], count: usize| [&positions(count)[..], &faces.concat(), &END].concat();
    let mut some = vec![whole.clone(), input(&END, &[]), input(&[], &[])];
    // 11: no whole count; a count of more bytes than there are; a record that is cut.
    some.extend([0, 1, 3, 4, 5, 3 + cover.len()].map(|length| whole[..length].to_vec()));
    let counted = |count: u32| [&count.to_le_bytes(), &whole[4..]].concat();
    let rest = whole.len() as u32 - 4;
    some.extend(
        [0, cover.len() as u32 - 1, cover.len() as u32 + 12, rest, rest + 1, rest.swap_bytes(), 0x8000_0000, u32::MAX]
            .map(counted),
    );
    // What the reader says comes before 18: 13, 12, 3, 14, 5, each with a triple that is cut.
    let refused = [
        [&cover[..], &[0]].concat(),
        record(7, &[]),
        faces(&[face(&[[0, MISSING, MISSING]; 33])], 1),
        [attribute(1, &[0.0, f64::NAN, 0.0]), END.to_vec()].concat(),
        faces(&[triangle(0, 1, 2)], 2),
    ];
    some.extend(refused.iter().map(|panel| [&input(panel, &[])[..], &[0; 5]].concat()));
    // 18: a triple cut in a number, between numbers, one missing, one more, some bytes more.
    some.extend([1, 4, 8, 12, 13].map(|less| whole[..whole.len() - less].to_vec()));
    some.extend([1, 4, 12].map(|more| [&whole[..], &vec![0; more]].concat()));
    // 19, also before 10; 10.
    let twice = faces(&[triangle(0, 1, 2), triangle(0, 1, 2)], 3);
    for far in [FARTHEST, -FARTHEST, FARTHEST + 1, -FARTHEST - 1, i32::MAX, i32::MIN] {
        some.push(input(&cover, &[&drawn()[..23], &[far]].concat()));
        some.push(input(&twice, &[&[0; 8], &[far][..]].concat()));
    }
    // Covers as they are: folded faces, texture points and normals, marks, a large face, hems that touch, and the long hem.
    some.push(input(&faces(&[triangle(0, 0, 1), triangle(0, 1, 2)], 3), &drawn()[..9]));
    some.push(input(
        &faces(&[face(&[[0, MISSING, MISSING], [1, MISSING, MISSING], [1, MISSING, MISSING], [2, MISSING, MISSING]])], 4),
        &drawn()[..12],
    ));
    let ring: Vec<[u32; 3]> = (0..40).map(|position| [position, MISSING, MISSING]).collect();
    some.push(input(&faces(&[large_face(40, &ring)], 40), &triples::list(&Random::of(SEED, 99), 120)));
    for (i, mesh) in subjects::examples()[..17].iter().skip(8).step_by(2).chain(&touching::meshes()[..6]).enumerate() {
        some.push(input(&writing::write(mesh), &triples::list(&Random::of(SEED + 1, i as u64), mesh.positions.len())));
    }
    some.push(input(&writing::write(&triples::long_hem()), &triples::apart()));
    let mut files: Vec<File> = some.into_iter().map(File::plain).collect();
    // 1: as many bytes as there may be, and one more. A count of 0 is one of no panel file, which the reader refuses by 11.
    files.extend([FILE, FILE + 1].map(|times| File { unit: vec![0], times, rest: vec![] }));
    files
}

/// The sheets have every number that an input can earn, but the reader's 1, which takes a long one.
pub fn numbers_on_sheets() {
    let said = |file: &File| sheet(&file.bytes()).strip_prefix("refused ").map_or(0, |number| number.trim().parse().unwrap());
    let numbers: BTreeSet<u32> = files().iter().map(said).collect();
    assert_eq!(numbers.into_iter().collect::<Vec<_>>(), [0, 1, 3, 5, 10, 11, 12, 13, 14, 18, 19]);
    assert_eq!(reading::hems::parts(&files()[0].bytes()).map(|(_, behind)| behind.len()), Some(4 * drawn().len()));
}
