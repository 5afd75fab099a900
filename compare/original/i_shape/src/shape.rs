//! The type aliases of the file src/int/shape.rs, which was not given.

use alloc::vec::Vec;
use i_float::int::point::IntPoint;

pub type IntContour<I> = Vec<IntPoint<I>>;
pub type IntShape<I> = Vec<IntContour<I>>;
pub type IntShapes<I> = Vec<IntShape<I>>;
