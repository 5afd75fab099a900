//! Points.

/// A point of a contour.
#[repr(C)]
#[derive(Debug, Clone, Copy, PartialEq, Eq, Hash, Default)]
pub struct IntPoint {
    /// To the right.
    pub x: i32,
    /// Upward.
    pub y: i32,
}

impl IntPoint {
    /// The point 0, 0.
    pub const ZERO: IntPoint = IntPoint::new(0, 0);

    /// The point x, y.
    pub const fn new(x: i32, y: i32) -> Self {
        IntPoint { x, y }
    }
}

impl From<[i32; 2]> for IntPoint {
    fn from([x, y]: [i32; 2]) -> Self {
        IntPoint { x, y }
    }
}

impl From<IntPoint> for [i32; 2] {
    fn from(p: IntPoint) -> Self {
        [p.x, p.y]
    }
}
