//! The grid and its points, an x and a y.

pub type Point = [i32; 2];

/// The largest coordinate of the grid; the smallest is its negative.
pub const LIMIT: i32 = 1_073_741_823;

/// The largest coordinate of the narrow grid, that of edition 1 files and of drawings in millimetres; the smallest is its
/// negative.
pub const NARROW: i32 = 536_870_912;

/// The most points of a contour.
pub const MOST_POINTS: usize = 65_536;
