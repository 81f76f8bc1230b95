//! A reader of scans that can misread one thing; with none it is held to the reading by a test.

use judge::reading::numbers::{ATTRIBUTES, FACES};
use judge::reading::scan::{Point, FRONT, HEADER, TRIANGLE};
use judge::{Mesh, MISSING};

/// What is misread: `wrong_scans` has each in words.
#[derive(Clone, Copy, Debug, PartialEq, Eq)]
pub enum Misread {
    None,
    ZeroKeptApart,
    ZeroKept,
    NormalTaken,
    NormalsHandedOn,
    LastAppearance,
    Sorted,
    TwoCoordinates,
    FoldedDropped,
    Flushed,
    Normalised,
    CountTurned,
    NoFields,
    ShortIs13,
    LongIs11,
    LongTaken,
    FrontOfThree,
    LengthFirst,
    Wraps,
    FewerTriangles,
    FewerPositions,
    MorePositions,
    InfinityPasses,
    NaNPasses,
    SignallingPasses,
    NormalsAsked,
    FirstAsked,
    BrokenLast,
    BrokenFirst,
}

/// A triangle as it stands in a file: its normal, its three points.
type Facet = [Point; 4];

/// The mesh of a scan, or its number.
pub fn read(file: &[u8], misread: Misread) -> Result<Mesh, u32> {
    if misread == Misread::FrontOfThree && file.len() == FRONT - 1 {
        return Ok(Mesh::default());
    }
    if file.len() < FRONT {
        return Err(11);
    }
    let facets: Vec<Facet> = file[FRONT..].chunks_exact(TRIANGLE).map(facet).collect();
    if misread == Misread::BrokenFirst {
        none_broken(&facets, misread)?;
    }
    let count = fits(file, misread)?;
    let facets = &facets[..count.min(facets.len())];
    let mesh = mesh_of(facets, misread);
    if misread == Misread::BrokenLast {
        within(&mesh, misread)?;
    }
    none_broken(facets, misread)?;
    within(&mesh, misread)?;
    Ok(mesh)
}

fn facet(bytes: &[u8]) -> Facet {
    let at = |place: usize| u32::from_le_bytes(bytes[4 * place..4 * place + 4].try_into().unwrap());
    [0, 3, 6, 9].map(|from| [at(from), at(from + 1), at(from + 2)])
}

/// How many triangles the count says, where the length is right for it.
fn fits(file: &[u8], misread: Misread) -> Result<usize, u32> {
    let four: [u8; 4] = file[HEADER..FRONT].try_into().unwrap();
    let count = if misread == Misread::CountTurned { u32::from_be_bytes(four) } else { u32::from_le_bytes(four) } as usize;
    let most = if misread == Misread::FewerTriangles { FACES - 1 } else { FACES };
    let each = if misread == Misread::NoFields { TRIANGLE - 2 } else { TRIANGLE };
    let mut asked = FRONT + each * count;
    if misread == Misread::Wraps {
        asked = asked as u32 as usize;
    }
    let over = count > most && (misread != Misread::Wraps || asked != file.len());
    if over && misread != Misread::LengthFirst {
        return Err(1);
    }
    if file.len() < asked {
        return Err(if misread == Misread::ShortIs13 { 13 } else { 11 });
    }
    if file.len() > asked && misread != Misread::LongTaken {
        return Err(if misread == Misread::LongIs11 { 11 } else { 13 });
    }
    if over {
        return Err(1);
    }
    Ok(count)
}

/// 14 where a point is not finite.
fn none_broken(facets: &[Facet], misread: Misread) -> Result<(), u32> {
    let from = if [Misread::NormalsAsked, Misread::NormalTaken].contains(&misread) { 0 } else { 1 };
    let to = if misread == Misread::NormalTaken { 3 } else { 4 };
    let places = if misread == Misread::FirstAsked { 1 } else { 3 };
    let mut asked = facets.iter().flat_map(|facet| &facet[from..to]).flat_map(|point| &point[..places]);
    if asked.any(|bits| is_broken(*bits, misread)) {
        return Err(14);
    }
    Ok(())
}

fn is_broken(bits: u32, misread: Misread) -> bool {
    let digits = bits & 0x007f_ffff;
    let passes = match misread {
        Misread::InfinityPasses => digits == 0,
        Misread::NaNPasses => digits != 0,
        Misread::SignallingPasses => digits != 0 && digits >> 22 == 0,
        _ => false,
    };
    bits >> 23 & 0xff == 0xff && !passes
}

/// 1 where there are too many positions.
fn within(mesh: &Mesh, misread: Misread) -> Result<(), u32> {
    let most = match misread {
        Misread::FewerPositions => ATTRIBUTES - 1,
        Misread::MorePositions => ATTRIBUTES + 1,
        _ => ATTRIBUTES,
    };
    if mesh.positions.len() > 3 * most {
        return Err(1);
    }
    Ok(())
}

fn mesh_of(facets: &[Facet], misread: Misread) -> Mesh {
    let from = if misread == Misread::NormalTaken { 0 } else { 1 };
    let read = |point: &Point| point.map(|bits| if is_kept(misread) || bits << 1 != 0 { bits } else { 0 });
    let triangles: Vec<Vec<Point>> = facets.iter().map(|facet| facet[from..from + 3].iter().map(read).collect()).collect();
    let is_folded = |t: &[Point]| (0..3).any(|i| key(t[i], misread) == key(t[(i + 1) % 3], misread));
    let dropped = |t: &[Point]| misread == Misread::FoldedDropped && is_folded(t);
    let points: Vec<Point> = triangles.into_iter().filter(|t| !dropped(t)).flatten().collect();
    let (numbers, positions) = numbered(&points, misread);
    let hands_on = misread == Misread::NormalsHandedOn;
    let normal = |corner: usize| if hands_on { corner as u32 / 3 } else { MISSING };
    let normals = facets.iter().filter(|_| hands_on).flat_map(|facet| facet[0]);
    Mesh {
        positions: positions.into_iter().flatten().map(|bits| widened(bits, misread)).collect(),
        normals: normals.map(|bits| widened(bits, misread)).collect(),
        corners: numbers.iter().enumerate().flat_map(|(i, number)| [*number, MISSING, normal(i), 0]).collect(),
        sizes: vec![3; points.len() / 3],
        ..Mesh::default()
    }
}

fn is_kept(misread: Misread) -> bool {
    [Misread::ZeroKeptApart, Misread::ZeroKept].contains(&misread)
}

/// What of a point is compared.
fn key(point: Point, misread: Misread) -> Point {
    match misread {
        Misread::ZeroKept => point.map(|bits| if bits << 1 == 0 { 0 } else { bits }),
        Misread::TwoCoordinates => [point[0], point[1], 0],
        _ => point,
    }
}

/// The number of each point, and the points by number.
fn numbered(points: &[Point], misread: Misread) -> (Vec<u32>, Vec<Point>) {
    let mut firsts: Vec<(Point, usize, usize)> =
        points.iter().enumerate().map(|(i, point)| (key(*point, misread), i, i)).collect();
    firsts.sort_unstable();
    firsts.dedup_by(|later, first| {
        let same = later.0 == first.0;
        if same {
            first.2 = later.2;
        }
        same
    });
    let keys = firsts.clone();
    match misread {
        Misread::LastAppearance => firsts.sort_by_key(|(_, _, last)| *last),
        Misread::Sorted => (),
        _ => firsts.sort_by_key(|(_, first, _)| *first),
    }
    let mut number_of = vec![0; keys.len()];
    for (number, (point, _, _)) in firsts.iter().enumerate() {
        number_of[place(&keys, point)] = number as u32;
    }
    let numbers = points.iter().map(|point| number_of[place(&keys, &key(*point, misread))]).collect();
    (numbers, firsts.iter().map(|(_, first, _)| points[*first]).collect())
}

fn place(keys: &[(Point, usize, usize)], point: &Point) -> usize {
    keys.binary_search_by_key(point, |(key, _, _)| *key).unwrap()
}

/// As an f64.
fn widened(bits: u32, misread: Misread) -> f64 {
    let (sign, exponent, digits) = ((bits as u64 >> 31) << 63, bits as u64 >> 23 & 0xff, bits as u64 & 0x007f_ffff);
    let is_subnormal = exponent == 0 && digits != 0;
    match misread {
        Misread::Flushed if is_subnormal => f64::from_bits(sign),
        Misread::Normalised if is_subnormal => f64::from_bits(sign | (1_023 - 127) << 52 | digits << 29),
        _ => f64::from(f32::from_bits(bits)),
    }
}
