//! The smallest box around some points, as document 01 ('Merging') has it.

use crate::cgmath64::{Point3, Vector3};

/// Least and greatest coordinate on each axis.
#[derive(Clone, Copy, Debug)]
pub struct BoundingBox<P> {
    least: P,
    greatest: P,
}

impl BoundingBox<Point3> {
    /// On each axis: least + (greatest - least)/2.
    pub fn center(self) -> Point3 {
        self.least + self.diagonal() / 2.0
    }

    /// On each axis: greatest - least.
    pub fn diagonal(self) -> Vector3 {
        self.greatest - self.least
    }
}

impl<'a> FromIterator<&'a Point3> for BoundingBox<Point3> {
    fn from_iter<I: IntoIterator<Item = &'a Point3>>(points: I) -> Self {
        let (high, low) = (f64::INFINITY, f64::NEG_INFINITY);
        let empty = BoundingBox { least: Point3::new(high, high, high), greatest: Point3::new(low, low, low) };
        points.into_iter().fold(empty, |known, p| BoundingBox {
            least: known.least.zip(*p, f64::min),
            greatest: known.greatest.zip(*p, f64::max),
        })
    }
}
