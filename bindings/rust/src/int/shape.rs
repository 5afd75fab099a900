//! Contours and shapes, each in memory of its own.

use crate::int::point::IntPoint;

/// A closed contour.
pub type IntContour = Vec<IntPoint>;

/// An outline, and the contours of its holes.
pub type IntShape = Vec<IntContour>;

/// Shapes.
pub type IntShapes = Vec<IntShape>;
