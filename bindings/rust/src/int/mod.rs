//! Contours and shapes of points.

pub mod area;
pub mod despike;
pub mod path;
pub mod point;
pub mod shape;
pub mod simple;

pub use point::IntPoint;
