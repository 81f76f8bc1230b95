//! Panel files: both sides of what refuses one, and some at random.

use crate::record::File;
use crate::subjects::is_plain;
use comparer::files;
use comparer::meshes;
use comparer::random::Random;
use judge::mesh::Corner;
use judge::reading::writing::LONGEST;
use judge::{reading, MISSING};

const SEED: u64 = 8;

pub fn record(kind: u16, body: &[u8]) -> Vec<u8> {
    [&(body.len() as u16).to_le_bytes(), &kind.to_le_bytes(), body].concat()
}

pub fn attribute(kind: u16, numbers: &[f64]) -> Vec<u8> {
    record(kind, &numbers.iter().flat_map(|x| x.to_le_bytes()).collect::<Vec<u8>>())
}

/// A corner in kinds 4 and 5: three numbers, and no mark.
pub type Bare = [u32; 3];

/// A face of kind 4.
pub fn face(corners: &[Bare]) -> Vec<u8> {
    record(4, &[&[corners.len() as u8][..], &indices(corners)].concat())
}

/// A face of kind 5, with a count that need not be that of its corners.
pub fn large_face(count: u16, corners: &[Bare]) -> Vec<u8> {
    record(5, &[&count.to_le_bytes()[..], &indices(corners)].concat())
}

/// A face of kind 6, with a count that need not be that of its corners.
pub fn marked_face(count: u16, corners: &[Corner]) -> Vec<u8> {
    let numbers = corners.iter().flatten().flat_map(|number| number.to_le_bytes());
    record(6, &count.to_le_bytes().into_iter().chain(numbers).collect::<Vec<u8>>())
}

fn indices(corners: &[Bare]) -> Vec<u8> {
    corners.iter().flatten().flat_map(|number| number.to_le_bytes()).collect()
}

pub fn triangle(a: u32, b: u32, c: u32) -> Vec<u8> {
    face(&[a, b, c].map(|p| [p, MISSING, MISSING]))
}

pub const END: [u8; 4] = [0; 4];

/// The document's own file: five positions, three faces, 267 bytes.
fn example() -> Vec<u8> {
    let positions = (0..5).flat_map(|i| attribute(1, &[i as f64, 0.0, -0.0]));
    let faces = [triangle(1, 2, 3), triangle(3, 1, 3), triangle(1, 3, 4)].concat();
    positions.chain(faces).chain(END).collect()
}

/// A record of every kind, and faces of all sizes, not grouped.
fn mixed() -> Vec<u8> {
    let corner = |i: u32| [i % 3, [0, MISSING][i as usize % 2], MISSING];
    let sized = |n: u32| face(&(0..n).map(corner).collect::<Vec<_>>());
    [
        sized(5),
        attribute(1, &[0.5, f64::MAX, f64::MIN_POSITIVE]),
        sized(4),
        attribute(2, &[-0.0, 5e-324]),
        sized(3),
        sized(0),
        attribute(3, &[1.0, 2.0, f64::MIN]),
        face(&[[7, 7, 7]]),
        attribute(1, &[0.0, 0.0, 0.0]),
        sized(2),
        sized(32),
        attribute(1, &[1e300, -1e-300, 0.1]),
        END.to_vec(),
    ]
    .concat()
}

/// Files at both sides of each refusal.
pub fn both_sides() -> Vec<File> {
    // All zeros, so that a list at its limit takes few words of ours.
    let (position, texture, normal) = (attribute(1, &[0.0; 3]), attribute(2, &[0.0; 2]), attribute(3, &[0.0; 3]));
    let (large, small) = (face(&[[0; 3]; 32]), face(&[[0; 3]; 3]));
    let attributes = [&position[..], &texture, &normal].concat();
    let end = END.to_vec();
    let whole = example();
    let more = |bytes: &[u8]| [&whole[..], bytes].concat();
    let then_end = |bytes: &[u8]| [bytes, &end[..]].concat();
    let times = |unit: &[u8], times: usize, rest: &[u8]| File { unit: unit.to_vec(), times, rest: rest.to_vec() };
    let mut some = vec![whole.clone(), mixed(), end.clone(), vec![]];
    // 11: cut in a header, in a body, before the end record.
    some.extend([1, 3, 5, 27, 28, 262, 263, 264, 266].map(|length| whole[..length].to_vec()));
    // 13: bytes after the end.
    some.extend([more(&[0]), more(&END)]);
    // 12: an unknown kind; a length that is wrong for its kind; n unlike m. 3: n over 32 in kind 4. Kinds 5 and 6 have files of their own.
    some.extend([vec![0, 0, 7, 0], vec![0, 0, 6, 0], vec![0, 0, 5, 0], vec![0, 0, 0, 1], vec![1, 0, 0, 0, 0], vec![0, 0, 4, 0]]);
    some.extend([record(1, &[0; 23]), record(1, &[0; 25]), record(2, &[0; 24]), record(3, &[0; 16])].map(|r| then_end(&r)));
    some.extend([record(4, &[0; 13]), record(4, &[1; 1]), record(4, &[2; 25]), record(4, &[0; 12])].map(|r| then_end(&r)));
    some.push(then_end(&[face(&[[MISSING; 3]; 2]), position.clone()].concat()));
    some.push(then_end(&[position.clone(), face(&[[0, MISSING, MISSING]; 32])].concat()));
    some.push(then_end(&[position.clone(), face(&[[0, MISSING, MISSING]; 33])].concat()));
    // 5: an index at its list's count.
    some.push(then_end(&[position.clone(), triangle(0, 0, 1)].concat()));
    some.push(then_end(&[triangle(0, 0, 0), position.clone()].concat()));
    some.push(then_end(&[position.clone(), face(&[[0, 0, MISSING]; 3])].concat()));
    some.push(then_end(&[position.clone(), texture.clone(), small.clone()].concat()));
    some.push(then_end(&[position.clone(), texture.clone(), normal.clone(), small.clone()].concat()));
    let mut files: Vec<File> = some.into_iter().map(File::plain).collect();
    // 1: each list at its limit and one entry over.
    for unit in [&position, &texture, &normal] {
        files.push(times(unit, 2_048, &END));
        files.push(times(unit, 2_049, &END));
    }
    files.push(times(&large, 128, &then_end(&attributes)));
    files.push(times(&large, 128, &then_end(&[&face(&[[MISSING; 3]; 2])[..], &attributes].concat())));
    files.push(times(&large, 128, &then_end(&[&small[..], &attributes].concat())));
    files.push(times(&large, 129, &END));
    files
}

/// Files that the reader refuses by 13: as long as the longest that a mesh can make, and one byte longer, which the cleaner refuses by 1.
pub fn longest() -> [File; 2] {
    [LONGEST, LONGEST + 1].map(|times| File { unit: vec![0], times, rest: vec![] })
}

/// The tolerance of the mesh that a random file is made from: `files::random` draws one number, and then the mesh.
fn tolerance(index: u64) -> f64 {
    let random = Random::of(SEED, index);
    random.bits();
    meshes::random(&random).tolerance
}

/// Random files of up to 400 bytes, so many that are read and so many that are refused.
pub fn at_random() -> Vec<File> {
    let (mut read, mut refused) = (8, 10);
    let mut files = vec![];
    for index in 0.. {
        if read + refused == 0 {
            break;
        }
        let file = files::random(&Random::of(SEED, index));
        if !(40..400).contains(&file.len()) || !is_plain(tolerance(index)) {
            continue;
        }
        let left = if reading::panel_file::read(&file).is_ok() { &mut read } else { &mut refused };
        if *left > 0 {
            *left -= 1;
            files.push(File::plain(file));
        }
    }
    files
}
