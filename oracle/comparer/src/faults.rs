//! Short files in which broken coordinates stand before, in and behind each other fault of a file.

use crate::files::{at_a_border, break_one, face, face_of_kind, record};
use crate::random::Random;
use judge::mesh::WIDTH;

const END: u16 = 0;

/// Whole and broken entries, faces and other faults in any order; now and then a list is full before them.
pub fn random(random: &Random) -> Vec<u8> {
    let often = random.within(1, 3);
    let kind = || if random.once_in(3) { random.within(1, 3) } else { often };
    let mut parts: Vec<Vec<u8>> = (0..random.within(1, 4)).map(|_| entry(kind())).collect();
    parts.extend((0..random.pick(&[0, 0, 1, 2])).map(|_| broken(random, kind())));
    parts.extend((0..random.pick(&[0, 0, 1, 2])).map(|_| fault(random, kind())));
    parts.extend((0..random.below(3)).map(|_| face(&[[0; WIDTH]; 3])));
    random.shuffle(&mut parts);
    if random.once_in(8) {
        parts.insert(0, entry(often).repeat(random.within(2_046, 2_048)));
    }
    parts.push(last(random, kind()));
    parts.concat()
}

/// How many coordinates an entry of a kind has.
fn width(kind: usize) -> usize {
    [3, 2, 3][kind - 1]
}

/// A position, a texture point or a normal.
fn entry(kind: usize) -> Vec<u8> {
    record(kind as u16, &0.5f64.to_le_bytes().repeat(width(kind)))
}

/// The same with a coordinate that is not finite.
fn broken(random: &Random, kind: usize) -> Vec<u8> {
    let mut entry = entry(kind);
    break_one(random, &mut entry);
    entry
}

/// A record that is refused by another number, or by another one too: an unknown kind, a wrong length, a face whose count is not its
/// corners', one of too many corners, one that names no position; and the end, which others may follow.
fn fault(random: &Random, kind: usize) -> Vec<u8> {
    let body = broken(random, kind)[4..].to_vec();
    match random.below(8) {
        0 => record(random.pick(&[5, 6, 7, 256, 257, 260, 261, 262]), &body),
        1 => record(kind as u16, &[&body[..], &[0; 8][..random.pick(&[1, 7, 8])]].concat()),
        2 => record(kind as u16, &body[..body.len() - random.pick(&[1, 8])]),
        3 => record(4, &[&[random.pick(&[2, 4, 34])][..], &[0; 36]].concat()),
        4 => face_of_kind(random.pick(&[4, 5, 6]), &[[0; WIDTH]; 33]),
        5 => face(&[[random.pick(&[7, 2_048]); WIDTH]; 3]),
        6 => at_a_border(random),
        _ => record(END, &[]),
    }
}

/// How a file ends: as it should, most often; cut in a header or in the body of an entry, with no end, or with something behind it.
fn last(random: &Random, kind: usize) -> Vec<u8> {
    let (end, broken) = (record(END, &[]), broken(random, kind));
    match random.below(10) {
        0 => vec![],
        1 => broken[..random.within(1, 3)].to_vec(),
        2..=3 => broken[..broken.len() - random.within(1, 16)].to_vec(),
        4 => [end, vec![0; random.within(1, 4)]].concat(),
        5 => [end, broken].concat(),
        _ => end,
    }
}
