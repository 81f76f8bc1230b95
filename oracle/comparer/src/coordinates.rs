//! Coordinates: many equal, many just near and just not near, and now and then one that is no ordinary number.

use crate::random::Random;

/// A tolerance, nearly always one that is accepted.
pub fn tolerance(random: &Random) -> f64 {
    let least = 2f64.powi(-30);
    match random.below(20) {
        0 => random.pick(&[least, 1.0]),
        1 => outside(random),
        2..=6 => random.pick(&[0.5, 0.625, 0.25, 1.0, 0.125]),
        7..=9 => random.pick(&[0.1, 0.3, 1e-6, 1e-3]),
        10 => 2f64.powi(-(random.below(31) as i32)),
        _ => (least.ln() * random.unit()).exp().max(least).min(1.0),
    }
}

/// A tolerance that is not accepted, or barely is.
fn outside(random: &Random) -> f64 {
    let least = 2f64.powi(-30);
    let below = f64::from_bits(least.to_bits() - 1);
    let above = f64::from_bits(1f64.to_bits() + 1);
    random.pick(&[f64::NAN, -f64::NAN, f64::INFINITY, f64::NEG_INFINITY, 0.0, -0.0, -0.5, below, above, 2.0, 5e-324, least, 1.0])
}

/// The coordinates of `count` points of some width, of which two are near at a step of about `step`.
pub fn list(random: &Random, count: usize, width: usize, step: f64) -> Vec<f64> {
    let numbers = count * width;
    match random.below(40) {
        0..=1 => (0..numbers).map(|_| random.pick(&[0.0, -0.0])).collect(),
        2 => vec![random.unit(); numbers],
        3..=7 => (0..numbers).map(|_| random.below(9) as f64 * 0.25 - 1.0).collect(),
        8..=12 => (0..numbers).map(|_| random.below(3) as f64).collect(),
        13..=24 => clusters(random, numbers, step),
        25..=30 => chain(random, count, width, step),
        31..=35 => spread(random, numbers),
        36 => (0..numbers).map(|_| anything_ordinary(random)).collect(),
        37 => (0..numbers).map(|_| edge(random, step)).collect(),
        38 => sprinkled(random, numbers, step),
        _ => (0..numbers).map(|_| f64::from_bits(random.bits())).collect(),
    }
}

/// Points on a line, each a stride from the next, in any order: long groups, and points as far from their centre as others.
fn chain(random: &Random, count: usize, width: usize, step: f64) -> Vec<f64> {
    let stride = step * random.pick(&[0.3, 0.5, 0.75, 0.9, 1.0, 1.2, 2.0]);
    let axis = random.below(width);
    let mut places: Vec<usize> = (0..count).collect();
    random.shuffle(&mut places);
    let begin = random.pick(&[0.0, -0.5, 0.1]);
    let coordinate = |place: usize, at: usize| if at == axis { begin + place as f64 * stride } else { 0.0 };
    places.iter().flat_map(|place| (0..width).map(|at| coordinate(*place, at)).collect::<Vec<_>>()).collect()
}

/// So many points at the borders of cells of this step: on whole multiples of it or a bit beside them, in cells that differ by 0 to 3, for many points
/// on one axis alone.
pub fn at_borders(random: &Random, count: usize, width: usize, step: f64) -> Vec<f64> {
    let base: Vec<f64> = (0..width).map(|_| random.pick(&[0.0, 0.0, -1.0, -2.0, -3.0, 1.0, 5.0, 1000.0])).collect();
    let cells = [0.0, 0.0, 0.0, 1.0, 2.0, 2.0, 2.0, 3.0, 3.0];
    let mut points = vec![];
    for _ in 0..count {
        let moved = random.below(width + 1);
        for axis in 0..width {
            let away = if moved == width || moved == axis { random.pick(&cells) } else { 0.0 };
            points.push(beside(random, (base[axis] + away) * step, step));
        }
    }
    points
}

/// A border, or a number just below it, just above it, or within the cell behind it.
fn beside(random: &Random, border: f64, step: f64) -> f64 {
    let by = |bits: i64| f64::from_bits(border.to_bits().wrapping_add(bits as u64));
    match random.below(8) {
        0..=1 if border == 0.0 => random.pick(&[0.0, -0.0, 5e-324, -5e-324]),
        0 => by(-1),
        1 => by(1),
        2 => border + step * random.unit(),
        _ => border,
    }
}

/// A few places, and about each of them points at quarters, halves and wholes of the step.
fn clusters(random: &Random, count: usize, step: f64) -> Vec<f64> {
    let places: Vec<f64> = (0..random.within(1, 4)).map(|_| random.below(5) as f64 * 0.25).collect();
    let strides = [0.0, 0.0, 0.25, 0.5, 0.5, 0.75, 0.9, 1.0, 1.0, 1.1, 1.5, 2.0, 2.5, 3.0];
    (0..count)
        .map(|_| {
            let sign = random.pick(&[1.0, -1.0]);
            random.pick(&places) + sign * step * random.pick(&strides)
        })
        .collect()
}

pub fn spread(random: &Random, count: usize) -> Vec<f64> {
    let scale = random.pick(&[0.01, 1.0, 1.0, 3.0, 1000.0, 2f64.powi(40)]);
    (0..count).map(|_| (random.unit() * 2.0 - 1.0) * scale).collect()
}

/// A finite number of a magnitude of at most 2^60.
pub fn anything_ordinary(random: &Random) -> f64 {
    let exponent = random.within(0, 1023 + 59) as u64;
    let bits = random.bits();
    f64::from_bits(bits & 0x800f_ffff_ffff_ffff | exponent << 52)
}

/// Numbers at the edges of the table.
fn edge(random: &Random, step: f64) -> f64 {
    let (most, cells) = (2f64.powi(60), 2f64.powi(53));
    let next = |x: f64, by: i64| f64::from_bits(x.to_bits().wrapping_add(by as u64));
    let edges = [
        0.0,
        5e-324,
        f64::MIN_POSITIVE,
        most,
        next(most, 1),
        next(most, -1),
        cells * step,
        next(cells * step, -1),
        next(cells * step, 1),
        cells,
        step,
        next(step, -1),
        2.0 * step,
        1.0,
        next(1.0, -1),
    ];
    random.pick(&[1.0, -1.0]) * random.pick(&edges)
}

/// Not a number, quiet or signalling, of either sign, most of them with digits of their own; or an infinity.
pub fn broken(random: &Random) -> f64 {
    let digits = random.pick(&[0, 0, 1, 1 << 50, 1 << 51, (1 << 52) - 1, random.bits() >> 12]);
    f64::from_bits(random.pick(&[0, 1 << 63]) | 0x7ff << 52 | digits)
}

/// Ordinary numbers with one now and then that is not finite, not a number, or at an edge.
fn sprinkled(random: &Random, count: usize, step: f64) -> Vec<f64> {
    let rare = random.pick(&[3, 20, 200]);
    let odd = [f64::NAN, f64::from_bits(0xfff8_0000_0000_0001), f64::INFINITY, f64::NEG_INFINITY, -0.0, f64::MAX];
    let mut list = clusters(random, count, step);
    for coordinate in list.iter_mut() {
        if random.once_in(rare) {
            *coordinate = if random.once_in(2) { random.pick(&odd) } else { edge(random, step) };
        }
    }
    list
}
