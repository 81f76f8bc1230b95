//! Number 14: coordinates that are not finite, in each list and at each place of an entry, and beside each number that comes before it or
//! behind it.

use crate::panel_files::{attribute, face, record, triangle, END};
use crate::record::File;
use crate::subjects::furnished;
use judge::reading::writing;
use judge::{Mesh, MISSING};

/// Not a number, quiet and signalling, of either sign, with digits of its own; and both infinities.
const BROKEN: [u64; 8] = [
    0x7ff8_0000_0000_0000,
    0x7ff0_0000_0000_0000,
    0xfff8_0000_0000_0000,
    0xfff0_0000_0000_0000,
    0x7ff0_0000_0000_0001,
    0x7ff7_ffff_ffff_ffff,
    0xfff4_0000_0000_0000,
    0xffff_ffff_ffff_ffff,
];

/// How many coordinates an entry of a kind has.
fn width(kind: u16) -> usize {
    [3, 2, 3][kind as usize - 1]
}

/// An entry whose coordinates are 0 but one.
fn entry(kind: u16, place: usize, coordinate: f64) -> Vec<u8> {
    let mut coordinates = vec![0.0; width(kind)];
    coordinates[place] = coordinate;
    attribute(kind, &coordinates)
}

/// Panel files: each is read up to the fault that comes first.
pub fn files() -> Vec<File> {
    let mut files = every_place();
    files.extend(beside_others().into_iter().map(|parts| File::plain(parts.concat())));
    files.extend(at_the_limit());
    files
}

/// Each place of each kind of entry, with two patterns; the corners use the entry, or no corner does. The largest numbers are read.
fn every_place() -> Vec<File> {
    let mut files = vec![];
    let places = (1..=3).flat_map(|kind| (0..width(kind)).map(move |place| (kind, place)));
    for (i, (kind, place)) in places.enumerate() {
        let whole: Vec<u8> = (1..=3).flat_map(|kind| entry(kind, 0, 0.0)).collect();
        let corners = [[0, 0, 0], [(kind == 1) as u32, (kind == 2) as u32, (kind == 3) as u32]];
        for (pattern, used) in [(i, 1), ((i + 3) % BROKEN.len(), 0)] {
            let broken = entry(kind, place, f64::from_bits(BROKEN[pattern]));
            files.push(File::plain([&whole[..], &broken, &face(&[corners[used]; 3]), &END].concat()));
        }
    }
    let large = [attribute(1, &[f64::MAX, f64::MIN, -0.0]), attribute(2, &[f64::MIN, f64::MAX]), attribute(3, &[f64::MAX; 3])];
    files.push(File::plain([&large.concat()[..], &face(&[[0; 3]; 3]), &END].concat()));
    files
}

/// A broken entry before, in and behind each other fault of a file but the limits.
fn beside_others() -> Vec<Vec<Vec<u8>>> {
    let (nan, end) = (entry(1, 1, f64::from_bits(BROKEN[0])), END.to_vec());
    let faults = [
        vec![0, 0, 5, 0],                   // 12: its kind
        record(3, &[0; 25]),                // 12: its length
        record(4, &[2; 25 + 12]),           // 12: n unlike m
        face(&[[0, MISSING, MISSING]; 33]), // 3
        triangle(0, 0, 9),                  // 5
    ];
    let mut files: Vec<Vec<Vec<u8>>> = vec![];
    for fault in faults {
        files.push(vec![nan.clone(), fault.clone(), end.clone()]);
        files.push(vec![fault, nan.clone(), end.clone()]);
    }
    // 11: a header that is cut behind it, no end, and its own body cut by a byte; 12: a length that is wrong by a coordinate.
    files.push(vec![nan.clone(), vec![24, 0, 1]]);
    files.push(vec![nan.clone()]);
    files.push(vec![nan[..27].to_vec()]);
    files.push(vec![record(1, &[&nan[4..], &[0; 8]].concat()), end.clone()]);
    files.push(vec![record(1, &nan[4..20]), end.clone()]);
    // 13: before the end, and behind it.
    files.push(vec![nan.clone(), end.clone(), vec![0]]);
    files.push(vec![end, nan]);
    files
}

/// Each list with its last entry broken, one entry over its limit with that one broken, and with a broken one behind that.
fn at_the_limit() -> Vec<File> {
    let mut files = vec![];
    for kind in 1..=3 {
        let (whole, broken) = (entry(kind, 0, 0.0), entry(kind, 1, f64::INFINITY));
        for (times, rest) in [(2_047, broken.clone()), (2_048, broken.clone()), (2_049, broken)] {
            files.push(File { unit: whole.clone(), times, rest: [&rest[..], &END].concat() });
        }
    }
    // The corners of all faces, over their limit before a broken entry and behind it.
    let large = face(&[[0; 3]; 32]);
    let broken = entry(1, 2, f64::NEG_INFINITY);
    files.push(File { unit: large.clone(), times: 129, rest: [&broken[..], &END].concat() });
    files.push(File { unit: large.clone(), times: 128, rest: [&broken[..], &large, &END].concat() });
    files
}

/// Meshes for the writer, and by how much the room is short of the file: each place of each list, beside each other number.
pub fn meshes() -> Vec<(Mesh, usize)> {
    let whole = furnished(&[&[0, 1, 2], &[0, 1, 2, 3, 4]]);
    let mut asked = vec![];
    for list in 0..3 {
        let numbers = [&whole.positions, &whole.textures, &whole.normals][list].len();
        let width = [3, 2, 3][list];
        // Every place of the first entry; then, in the last one, which may be unused, the other values.
        for place in 0..width {
            asked.push((with(&whole, list, place, f64::NAN), 0));
            asked.push((with(&whole, list, numbers - width + place, [f64::INFINITY, f64::NEG_INFINITY][place % 2]), 0));
        }
        asked.push((with(&whole, list, 0, f64::MAX), 0));
        // 14 comes before 9.
        let broken = with(&whole, list, 1, f64::INFINITY);
        let length = writing::length(&broken);
        asked.extend([1, length].map(|less| (broken.clone(), less)));
        asked.extend(refused(&broken).into_iter().map(|mesh| (mesh, 0)));
    }
    asked
}

/// The same mesh with one coordinate changed.
fn with(mesh: &Mesh, list: usize, place: usize, coordinate: f64) -> Mesh {
    let mut mesh = mesh.clone();
    match list {
        0 => mesh.positions[place] = coordinate,
        1 => mesh.textures[place] = coordinate,
        _ => mesh.normals[place] = coordinate,
    }
    mesh
}

/// A mesh that earns 1 to 5 before anything else.
fn refused(broken: &Mesh) -> [Mesh; 5] {
    let changed = |change: fn(&mut Mesh)| {
        let mut mesh = broken.clone();
        change(&mut mesh);
        mesh
    };
    [
        changed(|mesh| mesh.sizes = vec![3; 1_366]),
        changed(|mesh| mesh.sizes[1] = 6),
        changed(|mesh| mesh.sizes = vec![2, 6]),
        changed(|mesh| mesh.sizes = vec![5, 3]),
        changed(|mesh| mesh.corners[0] = 5),
    ]
}
