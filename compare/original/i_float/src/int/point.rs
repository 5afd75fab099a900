//! A point of the grid, and a difference of two.

use super::number::int::IntNumber;
use core::ops::Sub;

#[derive(Clone, Copy, Debug, PartialEq, Eq)]
pub struct IntPoint<I: IntNumber> {
    pub x: I,
    pub y: I,
}

impl<I: IntNumber> IntPoint<I> {
    pub const ZERO: Self = Self {
        x: I::ZERO,
        y: I::ZERO,
    };

    #[inline(always)]
    pub fn new(x: I, y: I) -> Self {
        Self { x, y }
    }

    #[inline(always)]
    pub fn cross_product(self, other: Self) -> I::Wide {
        #[cfg(feature = "count")]
        crate::count::one_more_cross();
        self.x.to_wide() * other.y.to_wide() - self.y.to_wide() * other.x.to_wide()
    }

    #[inline(always)]
    pub fn dot_product(self, other: Self) -> I::Wide {
        self.x.to_wide() * other.x.to_wide() + self.y.to_wide() * other.y.to_wide()
    }
}

impl<I: IntNumber> Sub for IntPoint<I> {
    type Output = Self;

    #[inline(always)]
    fn sub(self, other: Self) -> Self {
        Self::new(self.x - other.x, self.y - other.y)
    }
}
