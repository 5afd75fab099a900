//! The coordinate, and the wider number that holds its products.

pub mod int {
    use super::wide_int::WideIntNumber;
    use core::fmt::Debug;
    use core::ops::Sub;

    pub trait IntNumber: Copy + Debug + Ord + Sub<Output = Self> {
        type Wide: WideIntNumber;
        const ZERO: Self;
        fn to_wide(self) -> Self::Wide;
    }

    impl IntNumber for i32 {
        type Wide = i64;
        const ZERO: i32 = 0;

        #[inline(always)]
        fn to_wide(self) -> i64 {
            i64::from(self)
        }
    }
}

pub mod wide_int {
    use core::fmt::Debug;
    use core::ops::{Add, Div, Mul, Sub};

    pub trait WideIntNumber:
        Copy
        + Debug
        + Ord
        + Add<Output = Self>
        + Sub<Output = Self>
        + Mul<Output = Self>
        + Div<Output = Self>
    {
        const ZERO: Self;
        const TWO: Self;
        fn wrapping_add(self, other: Self) -> Self;
        fn wrapping_sub(self, other: Self) -> Self;
        fn wrapping_mul(self, other: Self) -> Self;
        fn signum(self) -> Self;
    }

    impl WideIntNumber for i64 {
        const ZERO: i64 = 0;
        const TWO: i64 = 2;

        #[inline(always)]
        fn wrapping_add(self, other: i64) -> i64 {
            i64::wrapping_add(self, other)
        }

        #[inline(always)]
        fn wrapping_sub(self, other: i64) -> i64 {
            i64::wrapping_sub(self, other)
        }

        #[inline(always)]
        fn wrapping_mul(self, other: i64) -> i64 {
            i64::wrapping_mul(self, other)
        }

        #[inline(always)]
        fn signum(self) -> i64 {
            i64::signum(self)
        }
    }
}
