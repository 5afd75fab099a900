//! The generator: xorshift with a fixed seed, so that the list is the same everywhere.

use crate::point::Point;

pub struct Rng(u64);

impl Rng {
    /// Each kind of case has a seed of its own, not 0: a change in one kind leaves the
    /// cases of the others as they are.
    pub fn new(seed: u64) -> Rng {
        Rng(seed.wrapping_mul(0x9E37_79B9_7F4A_7C15))
    }

    fn next(&mut self) -> u64 {
        self.0 ^= self.0 << 13;
        self.0 ^= self.0 >> 7;
        self.0 ^= self.0 << 17;
        self.0
    }

    /// A number from 0, below `end`.
    pub fn below(&mut self, end: usize) -> usize {
        (((self.next() >> 32) * end as u64) >> 32) as usize
    }

    /// A number from `low` to `high`, both included.
    pub fn between(&mut self, low: i32, high: i32) -> i32 {
        let count = i64::from(high) - i64::from(low) + 1;
        (i64::from(low) + self.below(count as usize) as i64) as i32
    }

    /// A point with both coordinates within `reach` of 0.
    pub fn point(&mut self, reach: i32) -> Point {
        [self.between(-reach, reach), self.between(-reach, reach)]
    }

    pub fn pick<T: Copy>(&mut self, from: &[T]) -> T {
        from[self.below(from.len())]
    }
}
