//! The winding of three points.

use crate::int::number::int::IntNumber;
use crate::int::number::wide_int::WideIntNumber;
use crate::int::point::IntPoint;

pub struct Triangle;

impl Triangle {
    /// Whether the way from `a` over `b` to `c` turns right; going straight on or
    /// back is no turn.
    #[inline(always)]
    pub fn is_clockwise<I: IntNumber>(a: IntPoint<I>, b: IntPoint<I>, c: IntPoint<I>) -> bool {
        (b - a).cross_product(c - b) < I::Wide::ZERO
    }
}
