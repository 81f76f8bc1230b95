//! Scans: both sides of what refuses one, what becomes of each kind of f32, and some at random.

use crate::record::File;
use comparer::random::Random;
use comparer::scans;
use judge::reading;
use judge::reading::scan::{Point, FRONT, HEADER, TRIANGLE};

const SEED: u64 = 9;

/// A triangle as it stands in a file, and its normal, by their bits.
type Facet = [Point; 4];

const ONE: u32 = 0x3f80_0000;
const MINUS_ZERO: u32 = 0x8000_0000;
const FLAT: Facet = [[0, 0, ONE], [0, 0, 0], [ONE, 0, 0], [0, ONE, 0]];
const INFINITY: u32 = 0x7f80_0000;
/// Not a number, quiet and signalling, of either sign and other digits; and both infinities.
const BROKEN: [u32; 8] =
    [0x7fc0_0000, 0xffc0_0000, 0x7f80_0001, 0xff80_0001, 0x7fbf_ffff, 0xffff_ffff, INFINITY, INFINITY | MINUS_ZERO];

fn facet([normal, a, b, c]: Facet, field: u16) -> Vec<u8> {
    let numbers = [normal, a, b, c].into_iter().flatten().flat_map(|bits| bits.to_le_bytes());
    numbers.chain(field.to_le_bytes()).collect()
}

fn front(count: u32) -> Vec<u8> {
    [vec![b' '; HEADER], count.to_le_bytes().to_vec()].concat()
}

fn scan(facets: &[Facet]) -> Vec<u8> {
    let bodies = facets.iter().enumerate().flat_map(|(i, bits)| facet(*bits, i as u16));
    front(facets.len() as u32).into_iter().chain(bodies).collect()
}

/// The file with a coordinate, by its place among those of the facets, of these bits.
fn with(facets: &[Facet], place: usize, bits: u32) -> Vec<u8> {
    let mut facets = facets.to_vec();
    *facets.iter_mut().flatten().flatten().nth(place).unwrap() = bits;
    scan(&facets)
}

/// A ring of triangles over four points, one of them folded.
fn ring() -> Vec<Facet> {
    let point = |i: u32| [ONE + i, i, MINUS_ZERO * (i % 2)];
    [[0, 1, 2], [2, 1, 3], [3, 3, 0], [0, 2, 3]].map(|[a, b, c]| [[0; 3], point(a), point(b), point(c)]).to_vec()
}

/// Scans that are read, and what each kind of f32 becomes: zeros of both signs, subnormals, both ends of each range.
pub fn read() -> Vec<File> {
    let mut files = vec![scan(&[]), scan(&[FLAT]), scan(&ring())];
    let kinds = [0, 1, 0x0040_0000, 0x007f_ffff, 0x0080_0000, 0x3eaa_aaab, 0x7f7f_ffff];
    for sign in [0, MINUS_ZERO] {
        files.push(scan(&kinds.map(|bits| [[0; 3], [sign | bits, 0, 1], [0, sign | bits, 1], [0, 1, sign | bits]])));
    }
    // Zeros of either sign in each place, in points that are one position; the negative one first, and later.
    files.extend((0..9).map(|place| with(&[FLAT, FLAT], 3 + place, MINUS_ZERO).to_vec()));
    files.extend([0, 1, 2].map(|place| with(&[FLAT, FLAT], 15 + place, MINUS_ZERO)));
    // A normal is passed over, whatever is in it.
    files.extend(BROKEN.iter().enumerate().map(|(i, bits)| with(&[FLAT, FLAT], 12 * (i % 2) + i % 3, *bits)));
    files.into_iter().map(File::plain).collect()
}

/// Both sides of each refusal.
pub fn both_sides() -> Vec<File> {
    let two = scan(&[FLAT, FLAT]);
    let mut files: Vec<Vec<u8>> = [0, 79, 80, 83, 84, 85, 133, 134, 135, 182, 183].map(|length| two[..length].to_vec()).to_vec();
    files.extend([1, 2, 50].map(|more| [&two[..], &vec![0; more]].concat()));
    // The count: its bytes the other way round, over its limit, and so large that the length does not fit in 32 bits.
    for count in [0, 1, 3, 2 << 24, 1_365, 1_366, 85_899_346, 1 << 31, u32::MAX] {
        files.push([&front(count)[..], &two[FRONT..]].concat());
        files.push([&front(count)[..], &[0; 4]].concat());
    }
    // 14: each place of a point; before and behind other faults.
    for (i, bits) in BROKEN.iter().enumerate() {
        files.push(with(&[FLAT, FLAT], 3 + i, *bits));
    }
    let broken = with(&[FLAT, FLAT], 23, INFINITY);
    files.extend([broken[..183].to_vec(), [&broken[..], &[0]].concat(), [&front(1_366)[..], &broken[FRONT..]].concat()]);
    files.into_iter().map(File::plain).collect()
}

/// So many triangles, over so many different points, of which the last is broken or not: in a row, each point a whole number of its own.
fn many(triangles: u32, points: u32, last: u32) -> File {
    let point = |i: u32| [if i + 1 == points { last } else { i % points }, 0, 0];
    let facets: Vec<Facet> = (0..triangles).map(|k| [[0; 3], point(3 * k), point(3 * k + 1), point(3 * k + 2)]).collect();
    File::plain(scan(&facets))
}

/// So many triangles, all alike, in few bytes of the list: what is repeated is a triangle's length, and has the count where the first one and the next
/// have it together, behind 80 bytes. There each triangle has half of its last coordinate, and its two-byte field.
fn alike(count: u32) -> File {
    let mut unit: Vec<u8> = (0..TRIANGLE as u8).collect();
    unit[HEADER - TRIANGLE..FRONT - TRIANGLE].copy_from_slice(&count.to_le_bytes());
    let rest = unit[..FRONT - TRIANGLE].to_vec();
    File { unit, times: count as usize + 1, rest }
}

/// Both sides of both limits.
pub fn limits() -> Vec<File> {
    let last = 0x00ff_ffff;
    vec![many(683, 2_048, last), many(683, 2_049, last), many(683, 2_049, INFINITY), alike(1_365), alike(1_366)]
}

/// Random scans of up to 1,000 bytes, so many that are read and so many that are refused.
pub fn at_random() -> Vec<File> {
    let (mut read, mut refused) = (10, 10);
    let mut files = vec![];
    for index in 0.. {
        if read + refused == 0 {
            break;
        }
        let file = scans::random(&Random::of(SEED, index));
        if !(100..1_000).contains(&file.len()) {
            continue;
        }
        let left = if reading::scan::read(&file).is_ok() { &mut read } else { &mut refused };
        if *left > 0 {
            *left -= 1;
            files.push(File::plain(file));
        }
    }
    files
}
