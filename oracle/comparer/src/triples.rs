//! What the list of hems is given beside its mesh, and what the hem sheet reads: triples of coordinates in tenths of a millimetre, right and spoilt, and a
//! cover with one long hem, whose length takes more than 32 bits.

use crate::random::Random;
use crate::{damage, files};
use judge::mesh::Corner;
use judge::reading::hems::{COUNT, FARTHEST, FILE};
use judge::reading::numbers::stated_rooms;
use judge::reading::{panel_file, writing};
use judge::{Call, Mesh, Question, MISSING};

/// How many entries the long hem's cover has on each of its two sides, and how often its hem goes round them.
const SIDE: u32 = 40;
const ROUNDS: u32 = 16;
/// The most edges of that hem that one face has, beside those where faces meet.
const OF_A_FACE: usize = 298;

/// What the list of hems is asked: the mesh with triples, or now and then the long hem.
pub fn question(random: &Random, mesh: &Mesh, is_small: bool) -> Question {
    let mut question = if !is_small && random.once_in(150) {
        Question { mesh: long_hem(), triples: apart(), ..Question::default() }
    } else {
        Question { mesh: mesh.clone(), triples: list(random, mesh.positions.len()), ..Question::default() }
    };
    if random.once_in(4) {
        spoil(random, &mut question.triples);
    }
    let stated = stated_rooms(Call::ListHems, &question.mesh);
    question.rooms = if is_small { stated } else { damage::rooms(random, stated) };
    question
}

/// So many coordinates: close together, so that many edges are as long as a whole number or just are not; anywhere; or as far apart as they may be.
pub fn list(random: &Random, count: usize) -> Vec<i32> {
    let (kind, step) = (random.below(6), random.pick(&[1, 1, 5, 1_000, 83_333]));
    let coordinate = || match kind {
        0..=1 => random.below(11) as i32 - 5,
        2 => step * random.pick(&[0, 0, 3, 4, 12, -3, -4]) + random.pick(&[0, 0, 0, 1, -1]),
        3..=4 => random.below(2_000_001) as i32 - FARTHEST,
        _ => random.pick(&[FARTHEST, -FARTHEST, FARTHEST, -FARTHEST, FARTHEST - 1, 1 - FARTHEST]),
    };
    (0..count).map(|_| coordinate()).collect()
}

/// Another number of coordinates, or one or two that are at the farthest, beyond it by one, or as far as 32 bits go.
fn spoil(random: &Random, triples: &mut Vec<i32>) {
    if random.once_in(2) {
        let by = random.pick(&[1, 1, 2, 3, 3, 6]);
        let length = if random.once_in(2) { triples.len() + by } else { triples.len().saturating_sub(by) };
        triples.resize(length, random.pick(&[0, 7, FARTHEST, FARTHEST + 1]));
    }
    for _ in 0..random.below(3) {
        let place = random.below(triples.len());
        if let Some(coordinate) = triples.get_mut(place) {
            let beyond = [FARTHEST + 1, -FARTHEST - 1, i32::MIN, i32::MAX];
            *coordinate = if random.once_in(4) { random.pick(&[FARTHEST, -FARTHEST]) } else { random.pick(&beyond) };
        }
    }
}

/// A cover of a few faces with one hem of 1,280 edges, which goes to and fro between two sides. Round k goes from entry i of one side to entry i + 2k of the
/// other and on to entry i + 1, so that no two edges join the same two; where the faces meet, an edge from entry 0 to one that no round joins it with.
pub fn long_hem() -> Mesh {
    let step = |round: u32, i: u32| [i, SIDE + (i + 2 * round) % SIDE];
    let hem: Vec<u32> = (0..ROUNDS).flat_map(|round| (0..SIDE).flat_map(move |i| step(round, i))).collect();
    let (mut cuts, mut seam) = (vec![0], SIDE + 2 * ROUNDS - 1);
    while hem.len() - cuts[cuts.len() - 1] > OF_A_FACE {
        // Each round has it once, so it comes before the face is full.
        let from = cuts[cuts.len() - 1] + OF_A_FACE - 2 * SIDE as usize;
        cuts.push(from + hem[from..].iter().position(|entry| *entry == seam).unwrap());
        seam += 1;
    }
    let face = |from: usize, to: usize| -> Vec<Corner> {
        let start = if from == 0 { &[][..] } else { &hem[..1] };
        start.iter().chain(&hem[from..to]).map(|position| [*position, MISSING, MISSING, 0]).collect()
    };
    let ends = cuts[1..].iter().map(|cut| cut + 1).chain([hem.len()]);
    let faces: Vec<Vec<Corner>> = cuts.iter().zip(ends).map(|(from, to)| face(*from, to)).collect();
    Mesh { positions: vec![0.5; 6 * SIDE as usize], ..Mesh::default() }.with_faces(&faces)
}

/// The triples of its positions: each side is one of two points that are as far apart as two points may be.
pub fn apart() -> Vec<i32> {
    [[FARTHEST; 3], [-FARTHEST; 3]].iter().flat_map(|point| point.repeat(SIDE as usize)).collect()
}

/// What the hem sheet is asked: a panel file with a count before it and triples behind it, right or spoilt; now and then the long hem, or as many bytes as
/// there may be.
pub fn input(random: &Random, panel: &[u8]) -> Question {
    let (panel, triples) = if random.once_in(150) { (writing::write(&long_hem()), apart()) } else { drawn(random, panel) };
    let behind: Vec<u8> = triples.iter().flat_map(|coordinate| coordinate.to_le_bytes()).collect();
    let mut panel = panel;
    if random.once_in(40) {
        let length = (FILE + random.below(4)).saturating_sub(1 + COUNT + behind.len());
        files::pad_to(random, &mut panel, length);
    }
    let mut file = [&count(random, &panel, &behind).to_le_bytes()[..], &panel, &behind].concat();
    if random.once_in(4) {
        damaged(random, &mut file);
    }
    let stated = stated_rooms(Call::HemSheet, &Mesh::default());
    Question { file, rooms: damage::rooms(random, stated), ..Question::default() }
}

/// A panel file with triples for its positions; of one that is refused nobody knows how many it has.
fn drawn(random: &Random, panel: &[u8]) -> (Vec<u8>, Vec<i32>) {
    let positions = panel_file::read(panel).map_or_else(|_| 3 * random.below(6), |mesh| mesh.positions.len());
    let mut triples = list(random, positions);
    if random.once_in(6) {
        spoil(random, &mut triples);
    }
    (panel.to_vec(), triples)
}

/// The count of the panel file's bytes, or another: off by one or by a triple, with the other end first, or beyond the file.
fn count(random: &Random, panel: &[u8], behind: &[u8]) -> u32 {
    let right = panel.len() as u32;
    let all = (panel.len() + behind.len()) as u32;
    if random.once_in(10) {
        let near = [right.wrapping_sub(1), right + 1, right + 4, right + 12, right.wrapping_sub(12), 0, all, all + 1];
        let far = [right.swap_bytes(), right | 0x1_0000, FILE as u32 - 4, FILE as u32, FILE as u32 + 1, 0x8000_0000, u32::MAX];
        return if random.once_in(3) { random.pick(&far) } else { random.pick(&near) };
    }
    right
}

/// Cuts the file, or adds bytes: some of a triple, or a whole one.
fn damaged(random: &Random, file: &mut Vec<u8>) {
    let by = random.pick(&[1, 2, 3, 4, 8, 11, 12, 12, 13, 24]);
    match random.below(5) {
        0 => file.truncate(random.below(file.len() + 1)),
        1 => file.truncate(random.below(9)),
        2..=3 => file.truncate(file.len().saturating_sub(by)),
        _ => file.extend(vec![random.pick(&[0, 0, 1, 255]); by]),
    }
}
